//! The Rust's properties as the judge: the unchanged file, and in step with it a copy that can be read.

use crate::cluster::{words_of, Entry, Plant};
use crate::state_machine::Accumulator;
use crate::{properties, readable};
use std::collections::BTreeSet;
use vsr_rs::Replica;

/// A verdict in the numbers of our answers: 0 is a pass.
#[derive(Clone, Copy, Debug, PartialEq, Eq)]
pub struct Verdict {
    pub code: u64,
    pub plant: u64,
    pub index: u64,
    pub test: u64,
}

pub const PASS: Verdict = Verdict {
    code: 0,
    plant: 0,
    index: 0,
    test: 0,
};

/// A call that passed, kept to rebuild the Rust's side after a break.
enum Call {
    Tick(Vec<Plant>),
    Reboot(usize),
}

pub struct Judge {
    unchanged: Vec<Box<dyn properties::Property>>,
    commits: readable::CommitNumberMonotonic,
    agreement: readable::CommittedPrefixAgreement,
    duplicates: readable::NoDuplicateOps,
    durability: readable::Durability,
    passed: Vec<Call>,
}

/// The two properties that are not rewritten.
const LEFT_OUT: [&str; 2] = ["state-matches-committed-log", "replies-match-commits"];

impl Judge {
    pub fn new() -> Judge {
        let mut unchanged = properties::default_properties();
        unchanged.retain(|property| !LEFT_OUT.contains(&property.name()));
        Judge {
            unchanged,
            commits: readable::CommitNumberMonotonic::default(),
            agreement: readable::CommittedPrefixAgreement::default(),
            duplicates: readable::NoDuplicateOps::default(),
            durability: readable::Durability::default(),
            passed: Vec::new(),
        }
    }

    pub fn tick(&mut self, plants: &[Plant]) -> Verdict {
        let verdict = self.ticked(plants);
        if verdict == PASS {
            self.passed.push(Call::Tick(plants.to_vec()));
        } else {
            self.rebuild();
        }
        verdict
    }

    pub fn reboot(&mut self, id: usize) {
        self.rebooted(id);
        self.passed.push(Call::Reboot(id));
    }

    fn ticked(&mut self, plants: &[Plant]) -> Verdict {
        let replicas: Vec<Replica<Accumulator>> = plants.iter().map(Plant::replica).collect();
        let context = properties::SimContext {
            tick: 0,
            replicas: &replicas,
            replies: &[],
            core: &[],
        };
        let mut broken = None;
        for property in &mut self.unchanged {
            if let Err(error) = property.check(&context) {
                broken = Some((property.name(), error.to_string()));
                break;
            }
        }
        let read = self.readable_ticked(&replicas);
        let told = broken.as_ref().map(|(_, message)| message);
        assert_eq!(told, read.as_ref(), "the readable copy goes another way");
        broken.map_or(PASS, |(name, message)| verdict(name, &message))
    }

    fn readable_ticked(&mut self, replicas: &[Replica<Accumulator>]) -> Option<String> {
        let context = readable::SimContext {
            tick: 0,
            replicas,
            replies: &[],
            core: &[],
        };
        for property in self.copies() {
            if let Err(error) = property.check(&context) {
                return Some(error.to_string());
            }
        }
        None
    }

    /// The readable copies of the properties of a tick, in their order.
    fn copies(&mut self) -> [&mut dyn readable::Property; 4] {
        [
            &mut self.commits,
            &mut self.agreement,
            &mut self.duplicates,
            &mut self.durability,
        ]
    }

    fn rebooted(&mut self, id: usize) {
        for property in &mut self.unchanged {
            property.on_reboot(id);
        }
        for property in self.copies() {
            property.on_reboot(id);
        }
    }

    /// A break leaves the Rust's properties part of the way: they are made again by the calls that passed.
    fn rebuild(&mut self) {
        let passed = std::mem::take(&mut self.passed);
        *self = Judge::new();
        for call in &passed {
            match call {
                Call::Tick(plants) => assert_eq!(self.ticked(plants), PASS),
                Call::Reboot(id) => self.rebooted(*id),
            }
        }
        self.passed = passed;
    }

    pub fn end(&mut self, plants: &[Plant], core: &[u64]) -> Verdict {
        let replicas: Vec<Replica<Accumulator>> = plants.iter().map(Plant::replica).collect();
        let core: Vec<usize> = core.iter().map(|&id| id as usize).collect();
        let context = properties::SimContext {
            tick: 0,
            replicas: &replicas,
            replies: &[],
            core: &core,
        };
        for property in &mut self.unchanged {
            if let Err(error) = property.finalize(&context) {
                let mut verdict = verdict(property.name(), &error.to_string());
                // The Rust does not tell which entry differs.
                if verdict.test == 2 {
                    let logs = (&plants[core[0]].log, &plants[verdict.plant as usize].log);
                    let unequal = logs.0.iter().zip(logs.1).position(|(a, b)| a != b);
                    verdict.index = unequal.expect("the Rust says that they differ") as u64;
                }
                return verdict;
            }
        }
        PASS
    }

    /// How many entries of each plant are verified. Before the first tick the Rust remembers no plant.
    pub fn last_commits(&self, n: usize) -> Vec<usize> {
        let mut last = self.commits.last_commit().to_vec();
        for other in [self.agreement.verified(), self.durability.verified()] {
            assert_eq!(last, other, "the properties have verified alike");
        }
        let seen: Vec<usize> = self.duplicates.seen().iter().map(|seen| seen.0).collect();
        assert_eq!(last, seen, "the properties have verified alike");
        last.resize(n, 0);
        last
    }

    pub fn canonical(&self) -> Vec<Entry> {
        self.agreement.canonical().iter().map(words_of).collect()
    }

    pub fn seen(&self, id: usize) -> BTreeSet<u64> {
        let seen = self.duplicates.seen().get(id);
        seen.map_or(BTreeSet::new(), |seen| seen.1.clone())
    }
}

/// What the Rust's message tells.
fn verdict(name: &str, message: &str) -> Verdict {
    let (code, test) = match name {
        "commit-number-monotonic" if message.contains("!= log length") => (1, 1),
        "commit-number-monotonic" if message.contains("> op_number") => (1, 2),
        "commit-number-monotonic" if message.contains("went backwards") => (1, 3),
        "committed-prefix-agreement" => (3, 1),
        "no-duplicate-ops" => (4, 1),
        "durability" => (6, 1),
        "convergence" if message.contains("log length") => (7, 1),
        "convergence" if message.contains("log differs") => (7, 2),
        "convergence" if message.contains(" committed ") => (7, 3),
        "convergence" if message.contains(" value ") => (7, 4),
        _ => panic!("{name}: {message}"),
    };
    let index = match code {
        3 | 4 | 6 => number_after(message, "at index "),
        _ => 0,
    };
    Verdict {
        code,
        plant: number_after(message, "replica "),
        index,
        test,
    }
}

fn number_after(message: &str, word: &str) -> u64 {
    let from = message.find(word).expect("the message has the word") + word.len();
    let digits: String = message[from..]
        .chars()
        .take_while(char::is_ascii_digit)
        .collect();
    digits.parse().expect("a number follows")
}

#[cfg(test)]
mod tests {
    use super::*;

    fn committed(body: u64) -> Plant {
        let log = vec![[1, 1, 7, body]];
        Plant {
            commit: 1,
            op: 1,
            log,
            ..Plant::new()
        }
    }

    /// docs/DIFFERENCES.md: the Rust keeps what it had remembered when a property breaks.
    #[test]
    fn a_break_leaves_the_rust_part_of_the_way() {
        let mut judge = Judge::new();
        let verdict = judge.ticked(&[committed(0), committed(1), committed(0)]);
        assert_eq!((verdict.code, verdict.plant, verdict.index), (3, 1, 0));
        assert_eq!(judge.canonical(), [[1, 1, 7, 0]]);
        assert_eq!(judge.agreement.verified(), [1, 0, 0]);
        judge.rebuild();
        assert!(judge.canonical().is_empty());
    }
}
