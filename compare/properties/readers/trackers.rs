
// Appended to a second copy of the file: readers of what the properties remember.

impl Durability {
    pub fn verified(&self) -> &[usize] {
        &self.verified
    }
}

impl CommitNumberMonotonic {
    pub fn last_commit(&self) -> &[usize] {
        &self.last_commit
    }
}

impl CommittedPrefixAgreement {
    pub fn canonical(&self) -> &[LogEntry<Op>] {
        &self.canonical
    }

    pub fn verified(&self) -> &[usize] {
        &self.verified
    }
}

impl NoDuplicateOps {
    pub fn seen(&self) -> &[(usize, BTreeSet<u64>)] {
        &self.seen
    }
}
