//! The simulator's properties over the proved library: 1, 3, 4, 6 and 7 by its tracker, and the two that the rules leave out
//! as the Rust has them, tested in the Rust's order.

use crate::adapted::properties::{
    Property, RepliesMatchCommits, SimContext, StateMatchesCommittedLog,
};
use crate::limits::refused;
use crate::state_machine::{Accumulator, Op};
use anyhow::{bail, Result};
use bellmantle::{Broken, Property as Kind, Snapshot, Tracker, LOG_ENTRIES};
use vsr_rs::{LogEntry, Replica};

/// A tracker and the words that it is lent.
pub struct Judge {
    tracker: Tracker,
    snapshot: Snapshot,
}

impl Judge {
    pub fn new(n: usize) -> Judge {
        Judge {
            tracker: Tracker::new(n).unwrap_or_else(|r| refused(r)),
            snapshot: Snapshot::new(n),
        }
    }

    pub fn tracker(&self) -> &Tracker {
        &self.tracker
    }

    /// A plant lost its memory.
    pub fn reboot(&mut self, id: usize) {
        self.tracker.reboot(id).unwrap_or_else(|r| refused(r))
    }

    /// After a tick, properties 1, 3, 4 and 6.
    pub fn tick(&mut self, replicas: &[Replica<Accumulator>]) -> Option<Broken> {
        self.lend(replicas);
        self.call()
    }

    /// Sets the words of the snapshot that a tick call reads: each plant's numbers, and of the logs the entries from the
    /// lowest last commit that has moved to the highest commit. Other entries stay from earlier ticks.
    pub fn lend(&mut self, replicas: &[Replica<Accumulator>]) {
        let (mut low, mut high) = (LOG_ENTRIES, 0);
        for (id, replica) in replicas.iter().enumerate() {
            let commit = replica.commit_number();
            self.lend_numbers(id, replica);
            let last = self.last_commit(id);
            if commit > last {
                low = low.min(last);
                high = high.max(commit);
            }
        }
        if low < high {
            for (id, replica) in replicas.iter().enumerate() {
                self.lend_entries(id, replica.log(), low, high);
            }
        }
    }

    /// The tick call on the words as they are.
    pub fn call(&mut self) -> Option<Broken> {
        let told = self.tracker.tick(&self.snapshot);
        told.unwrap_or_else(|r| refused(r))
    }

    /// At the end, property 7.
    pub fn end(&mut self, replicas: &[Replica<Accumulator>], core: &[usize]) -> Option<Broken> {
        for (id, replica) in replicas.iter().enumerate() {
            self.lend_numbers(id, replica);
            self.lend_entries(id, replica.log(), 0, LOG_ENTRIES);
        }
        let values: Vec<i64> = replicas
            .iter()
            .map(|replica| replica.state_machine().value)
            .collect();
        let core: Vec<u64> = core.iter().map(|&id| id as u64).collect();
        let told = self.tracker.end(&self.snapshot, &values, &core);
        told.unwrap_or_else(|r| refused(r))
    }

    /// The tracker's words are n, the canonical length, and then the last commits.
    fn last_commit(&self, id: usize) -> usize {
        self.tracker.words()[2 + id] as usize
    }

    fn lend_numbers(&mut self, id: usize, replica: &Replica<Accumulator>) {
        self.snapshot.set_plant(
            id,
            replica.is_recovering(),
            replica.commit_number() as u64,
            replica.op_number() as u64,
            replica.log().len() as u64,
        );
    }

    fn lend_entries(&mut self, id: usize, log: &[LogEntry<Op>], low: usize, high: usize) {
        let high = high.min(log.len()).min(LOG_ENTRIES);
        for (index, entry) in log.iter().enumerate().take(high).skip(low) {
            let words = [
                entry.client_id as u64,
                entry.request_number as u64,
                entry.op.id,
                entry.op.kind.word(),
            ];
            self.snapshot.set_entry(id, index, words);
        }
    }
}

/// The whole set, as one property of the simulator.
pub struct Tracked {
    judge: Judge,
    state: StateMatchesCommittedLog,
    replies: RepliesMatchCommits,
    /// The property tested last.
    name: &'static str,
}

impl Tracked {
    pub fn new(n: usize) -> Tracked {
        Tracked {
            judge: Judge::new(n),
            state: StateMatchesCommittedLog::default(),
            replies: RepliesMatchCommits::default(),
            name: "",
        }
    }

    fn report(&mut self, broken: Option<Broken>, kinds: &[Kind], when: &str) -> Result<()> {
        match broken {
            Some(broken) if kinds.contains(&broken.property) => {
                self.name = name(broken.property);
                bail!("{when}{}", told(broken))
            }
            _ => Ok(()),
        }
    }
}

impl Property for Tracked {
    fn name(&self) -> &'static str {
        self.name
    }

    fn check(&mut self, ctx: &SimContext) -> Result<()> {
        let broken = self.judge.tick(ctx.replicas);
        let when = match broken {
            Some(_) => format!("tick {}: ", ctx.tick),
            None => String::new(),
        };
        self.report(broken, &[Kind::CommitNumberMonotonic], &when)?;
        self.name = "state-matches-committed-log";
        self.state.check(ctx)?;
        let middle = [Kind::CommittedPrefixAgreement, Kind::NoDuplicateOps];
        self.report(broken, &middle, &when)?;
        self.name = "replies-match-commits";
        self.replies.check(ctx)?;
        self.report(broken, &[Kind::Durability], &when)
    }

    fn finalize(&mut self, ctx: &SimContext) -> Result<()> {
        self.name = "replies-match-commits";
        self.replies.finalize(ctx)?;
        let broken = self.judge.end(ctx.replicas, ctx.core);
        self.report(broken, &[Kind::Convergence], "")
    }

    fn on_reboot(&mut self, replica_id: usize) {
        self.judge.reboot(replica_id);
        self.state.on_reboot(replica_id);
    }
}

/// The Rust's name of a property.
pub fn name(kind: Kind) -> &'static str {
    match kind {
        Kind::CommitNumberMonotonic => "commit-number-monotonic",
        Kind::CommittedPrefixAgreement => "committed-prefix-agreement",
        Kind::NoDuplicateOps => "no-duplicate-ops",
        Kind::Durability => "durability",
        Kind::Convergence => "convergence",
    }
}

/// What our answer tells: the plant, and the index where the Rust tells one, or else the test.
fn told(broken: Broken) -> String {
    match broken.property {
        Kind::CommitNumberMonotonic | Kind::Convergence => {
            format!("replica {}, test {}", broken.plant, broken.test)
        }
        _ => format!("replica {}, index {}", broken.plant, broken.index),
    }
}
