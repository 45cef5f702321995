//! The cluster properties.

use crate::raw::{self, ENTRY_WORDS, LOG_ENTRIES, LOG_WORDS, MOST_PLANTS, SNAPSHOT_PLANT_WORDS};
use crate::Refusal;

/// A property.
#[derive(Clone, Copy, Debug, PartialEq, Eq)]
#[allow(missing_docs)]
pub enum Property {
    CommitNumberMonotonic,
    CommittedPrefixAgreement,
    NoDuplicateOps,
    Durability,
    Convergence,
}

impl Property {
    fn of(number: u64) -> Property {
        match number {
            1 => Property::CommitNumberMonotonic,
            3 => Property::CommittedPrefixAgreement,
            4 => Property::NoDuplicateOps,
            6 => Property::Durability,
            7 => Property::Convergence,
            number => panic!("the library has no property {number}"),
        }
    }
}

/// The first broken place: the property, the plant, the index (0 where the test has none), and the test, counted from 1.
#[derive(Clone, Copy, Debug, PartialEq, Eq)]
#[allow(missing_docs)]
pub struct Broken {
    pub property: Property,
    pub plant: usize,
    pub index: usize,
    pub test: u64,
}

fn told(words: [u64; 4]) -> Option<Broken> {
    match words[raw::told::PROPERTY] {
        0 => None,
        number => Some(Broken {
            property: Property::of(number),
            plant: words[raw::told::PLANT] as usize,
            index: words[raw::told::INDEX] as usize,
            test: words[raw::told::TEST],
        }),
    }
}

/// A snapshot of the plants and their logs.
#[derive(Clone, Debug)]
pub struct Snapshot {
    plants: Vec<u64>,
    logs: Vec<u64>,
}

impl Snapshot {
    /// Of n plants with empty logs.
    pub fn new(n: usize) -> Snapshot {
        Snapshot {
            plants: vec![0; n * SNAPSHOT_PLANT_WORDS],
            logs: vec![0; n * LOG_WORDS],
        }
    }

    /// Sets a plant's numbers: whether it is recovering, its commit and op numbers, and the length of its log.
    pub fn set_plant(&mut self, id: usize, recovering: bool, commit: u64, op: u64, length: u64) {
        let words = [u64::from(recovering), commit, op, length];
        self.plants[id * SNAPSHOT_PLANT_WORDS..(id + 1) * SNAPSHOT_PLANT_WORDS]
            .copy_from_slice(&words);
    }

    /// Sets an entry of a plant's log: client, request, op id, op body. The index must be below [`LOG_ENTRIES`].
    pub fn set_entry(&mut self, id: usize, index: usize, entry: [u64; 4]) {
        assert!(
            index < LOG_ENTRIES,
            "a log has at most {LOG_ENTRIES} entries"
        );
        let at = id * LOG_WORDS + index * ENTRY_WORDS;
        self.logs[at..at + ENTRY_WORDS].copy_from_slice(&entry);
    }
}

/// What earlier ticks have shown.
#[derive(Clone, Debug, PartialEq, Eq)]
pub struct Tracker {
    n: usize,
    words: Vec<u64>,
}

impl Tracker {
    /// A fresh tracker of n plants: 40.
    pub fn new(n: usize) -> Result<Tracker, Refusal> {
        // A number of plants that is refused is never looked up.
        let mut words = vec![0; raw::tracker_words(n.min(MOST_PLANTS))];
        Refusal::check(raw::properties_fresh(n as u64, &mut words))?;
        Ok(Tracker { n, words })
    }

    /// Its words.
    pub fn words(&self) -> &[u64] {
        &self.words
    }

    /// A plant came back without its memory: 41.
    pub fn reboot(&mut self, id: usize) -> Result<(), Refusal> {
        Refusal::check(raw::properties_reboot(
            self.n as u64,
            id as u64,
            &mut self.words,
        ))
    }

    /// After a tick: the first broken property, if one is. 60, 61.
    pub fn tick(&mut self, snapshot: &Snapshot) -> Result<Option<Broken>, Refusal> {
        let mut words = [0; 4];
        Refusal::check(raw::properties_tick(
            self.n as u64,
            &snapshot.plants,
            &snapshot.logs,
            &mut self.words,
            &mut words,
        ))?;
        Ok(told(words))
    }

    /// At the end of a run: whether the core plants have converged, with a value for each plant. 60, 61.
    pub fn end(
        &self,
        snapshot: &Snapshot,
        values: &[i64],
        core: &[u64],
    ) -> Result<Option<Broken>, Refusal> {
        let mut words = [0; 4];
        Refusal::check(raw::properties_end(
            self.n as u64,
            &snapshot.plants,
            &snapshot.logs,
            values,
            core,
            &self.words,
            &mut words,
        ))?;
        Ok(told(words))
    }
}
