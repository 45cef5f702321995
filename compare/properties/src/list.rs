//! The calls of runs, with a mirror of the rows that they are lent: only words that change are put.

use crate::cluster::{Entry, Plant, VALUES};
use crate::judge::Verdict;
use calls::case::{Call, Case, Row, Words};
use calls::nets::PATTERN;

pub const LOG_WORDS: usize = 512;
pub const PLANT_ROOM: usize = 64;
pub const LOG_ROOM: usize = 7684;
pub const SMALL_ROOM: usize = 16;
pub const TRACKER_ROOM: usize = 2450;

/// The most that a list's length may be.
pub const LIST_ROOM: usize = 524_288;

/// What a call and words put together add to the length.
const STEP: usize = 64;

/// n and how many words of each row are lent.
#[derive(Clone, Copy, PartialEq, Eq)]
pub struct Lent {
    pub n: u64,
    pub plants: usize,
    pub logs: usize,
    pub values: usize,
    pub core: usize,
    pub tracker: usize,
}

impl Lent {
    pub fn for_plants(n: usize) -> Lent {
        Lent {
            n: n as u64,
            plants: 4 * n,
            logs: LOG_WORDS * n,
            values: n,
            core: 0,
            tracker: 514 + 129 * n,
        }
    }
}

pub struct List {
    pub cases: Vec<Case>,
    /// How long the list is, which is what ends it.
    pub length: usize,
    pub plants: [u64; PLANT_ROOM],
    logs: Vec<u64>,
    values: [u64; SMALL_ROOM],
    pub core: [u64; SMALL_ROOM],
    /// The tracker that is expected.
    pub tracker: Vec<u64>,
    lent: Option<Lent>,
    /// Words put since the last call.
    put: Vec<Words>,
    /// The longest log and the most plants, of those that the rules take.
    pub longest: u64,
    pub most: u64,
}

impl List {
    /// No call yet, and zeros in every row.
    pub fn new() -> List {
        let rows = [
            Row::Snapshot,
            Row::Logs,
            Row::Values,
            Row::Ids,
            Row::Tracker,
        ];
        let put = rows.map(|row| Words {
            row,
            at: 0,
            words: vec![0; row.words()],
        });
        List {
            cases: Vec::new(),
            length: 0,
            plants: [0; PLANT_ROOM],
            logs: vec![0; LOG_ROOM],
            values: [0; SMALL_ROOM],
            core: [0; SMALL_ROOM],
            tracker: vec![0; TRACKER_ROOM],
            lent: None,
            put: put.to_vec(),
            longest: 0,
            most: 0,
        }
    }

    fn put(&mut self, row: Row, at: usize, words: &[u64]) {
        self.length += STEP;
        self.put.push(Words {
            row,
            at,
            words: words.to_vec(),
        });
    }

    pub fn plant_words(&mut self, id: usize, words: [u64; 4]) {
        let at = 4 * id;
        if self.plants[at..at + 4] != words {
            self.plants[at..at + 4].copy_from_slice(&words);
            self.put(Row::Snapshot, at, &words);
            if words[3] <= 128 {
                self.longest = self.longest.max(words[3]);
            }
        }
    }

    pub fn entry(&mut self, id: usize, index: usize, entry: &Entry) {
        let at = LOG_WORDS * id + 4 * index;
        if self.logs[at..at + 4] != *entry {
            self.logs[at..at + 4].copy_from_slice(entry);
            self.put(Row::Logs, at, entry);
        }
    }

    /// Lays a snapshot. Words past a log's length stay as earlier snapshots left them.
    pub fn snapshot(&mut self, plants: &[Plant]) {
        for (id, plant) in plants.iter().enumerate() {
            self.plant_words(id, plant.words());
            for (index, entry) in plant.log.iter().enumerate() {
                self.entry(id, index, entry);
            }
        }
    }

    pub fn values(&mut self, plants: &[Plant]) {
        for (id, plant) in plants.iter().enumerate() {
            let word = VALUES[plant.value] as u64;
            if self.values[id] != word {
                self.values[id] = word;
                self.put(Row::Values, id, &[word]);
            }
        }
    }

    pub fn core(&mut self, core: &[u64]) {
        for (place, &id) in core.iter().enumerate() {
            if self.core[place] != id {
                self.core[place] = id;
                self.put(Row::Ids, place, &[id]);
            }
        }
    }

    pub fn tracker_word(&mut self, at: usize, word: u64) {
        if self.tracker[at] != word {
            self.tracker[at] = word;
            self.put(Row::Tracker, at, &[word]);
        }
    }

    pub fn lend(&mut self, lent: Lent) {
        if self.lent != Some(lent) {
            self.lent = Some(lent);
            self.length += STEP;
            if lent.n <= 15 {
                self.most = self.most.max(lent.n);
            }
        }
    }

    /// A call with the answer expected; the tracker is the one expected after it. An id is a reboot's.
    pub fn call(&mut self, call: Call, id: u64, verdict: Verdict) {
        let lent = self.lent.expect("something is lent");
        let [plants, logs, values] = [lent.plants, lent.logs, lent.values].map(|len| len as u64);
        let [core, tracker] = [lent.core, lent.tracker].map(|len| len as u64);
        let numbers = match call {
            Call::PropertiesFresh => vec![lent.n, tracker],
            Call::PropertiesReboot => vec![lent.n, id, tracker],
            Call::PropertiesTick => vec![lent.n, plants, logs, tracker],
            _ => vec![lent.n, plants, logs, values, core, tracker],
        };
        let is_refused = verdict.code >= 40;
        let answer = if is_refused { verdict.code } else { 0 };
        let mut case = Case::new(call, &numbers, answer).meets(outcome(call, verdict));
        if call.writes().contains(&Row::Told4) {
            case = case.filled(Row::Told4, PATTERN);
            if !is_refused {
                let told = [verdict.code, verdict.plant, verdict.index, verdict.test];
                case = case.expects(Row::Told4, 0, &told);
            }
        }
        if call.writes().contains(&Row::Tracker) {
            case = case.expects(Row::Tracker, 0, &self.tracker);
        }
        case.before.append(&mut self.put);
        self.cases.push(case);
        self.length += STEP;
    }
}

/// What a call is counted as.
fn outcome(call: Call, verdict: Verdict) -> String {
    match verdict.code {
        0 => match call {
            Call::PropertiesTick => "tick passed",
            Call::PropertiesEnd => "end passed",
            Call::PropertiesFresh => "fresh",
            _ => "reboot",
        }
        .to_string(),
        code @ (1 | 7) => format!("property {code} test {}", verdict.test),
        code @ (3 | 4 | 6) => format!("property {code}"),
        code => format!("refusal {code}"),
    }
}
