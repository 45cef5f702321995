//! A network as a plain struct with a list, carried from call to call as the rules say it (docs/RULES.md, "The
//! network"). It is what is expected where words were put that no call wrote; elsewhere the standing calls decide
//! (standing.rs), and this must say the same.

use crate::fate::{refused_options, Fate, Letter};
use calls::nets::{Options, LOSS, PENDING};

pub const CAPACITY: usize = 128;
pub const SENT_LIMIT: u64 = 1 << 62;

/// Due, number, sent tick, origin's sort, origin, to, kind, handle.
pub type Record = [u64; 8];

#[derive(Clone, Debug, PartialEq)]
pub struct Network {
    pub options: Options,
    /// In the order of (due, number).
    pub pending: Vec<Record>,
    pub seq: u64,
    pub sent: u64,
    pub delivered: u64,
    pub lost: u64,
    pub replayed: u64,
    pub delayed: u64,
}

impl Letter {
    pub fn copy(&self, due: u64, seq: u64) -> Record {
        [
            due,
            seq,
            self.now,
            self.sort,
            self.origin,
            self.to,
            self.kind,
            self.handle,
        ]
    }
}

impl Network {
    pub fn fresh(options: Options) -> Network {
        Network {
            options,
            pending: Vec::new(),
            seq: 0,
            sent: 0,
            delivered: 0,
            lost: 0,
            replayed: 0,
            delayed: 0,
        }
    }

    /// Its words, in the places that `calls::nets` names.
    pub fn words(&self) -> Vec<u64> {
        let mut words = self.pending.concat();
        words.resize(8 * CAPACITY, 0);
        words.extend([self.pending.len() as u64, self.seq, self.sent]);
        words.extend([self.delivered, self.lost, self.replayed, self.delayed]);
        words.extend(self.options);
        words
    }

    /// The network of these words, unless they are ill formed.
    pub fn read(words: &[u64]) -> Option<Network> {
        let count = usize::try_from(words[PENDING]).ok()?;
        let records = words.get(..count.checked_mul(8)?)?;
        if count > CAPACITY || words[8 * count..PENDING].iter().any(|word| *word != 0) {
            return None;
        }
        let network = Network {
            options: words[LOSS..LOSS + 5].try_into().ok()?,
            pending: records.chunks(8).map(record_of).collect(),
            seq: words[PENDING + 1],
            sent: words[PENDING + 2],
            delivered: words[PENDING + 3],
            lost: words[PENDING + 4],
            replayed: words[PENDING + 5],
            delayed: words[PENDING + 6],
        };
        network.is_well_formed().then_some(network)
    }

    pub fn is_well_formed(&self) -> bool {
        refused_options(self.options).is_ok() && self.records_are_good() && self.counts_are_good()
    }

    fn records_are_good(&self) -> bool {
        let mut numbers: Vec<u64> = self.pending.iter().map(|record| record[1]).collect();
        numbers.sort_unstable();
        let rising = |pair: &[Record]| pair[0][..2] < pair[1][..2];
        self.pending.len() <= CAPACITY
            && self.pending.windows(2).all(rising)
            && numbers.iter().all(|seq| (1..=self.seq).contains(seq))
            && numbers.windows(2).all(|pair| pair[0] < pair[1])
            && self.pending.iter().all(|r| r[3] <= 1 && r[6] <= 10)
    }

    fn counts_are_good(&self) -> bool {
        let pending = self.pending.len() as u128;
        let made = u128::from(self.sent) + u128::from(self.replayed);
        let gone = u128::from(self.delivered) + u128::from(self.lost);
        self.sent <= SENT_LIMIT
            && self.lost <= self.sent
            && self.replayed <= self.sent
            && made == gone + pending
            && u128::from(self.seq) == u128::from(self.delivered) + pending
            && self.delayed <= self.seq
    }

    /// In the order of (due, number).
    fn sort(&mut self) {
        self.pending.sort_by_key(|record| (record[0], record[1]));
    }

    pub fn due(&self, now: u64) -> Vec<Record> {
        let due = self.pending.iter().filter(|record| record[0] <= now);
        due.copied().collect()
    }

    // ---- The calls

    pub fn sending(mut self, letter: &Letter, fate: &Fate) -> Network {
        for due in &fate.dues {
            self.seq += 1;
            self.pending.push(letter.copy(*due, self.seq));
        }
        self.sort();
        self.sent += 1;
        self.lost += u64::from(fate.is_lost());
        self.replayed += u64::from(fate.is_replayed());
        self.delayed += fate.delayed;
        self
    }

    pub fn taking(mut self, now: u64) -> Network {
        self.delivered += self.due(now).len() as u64;
        self.pending.retain(|record| record[0] > now);
        self
    }

    pub fn choosing(mut self, options: Options) -> Network {
        self.options = options;
        self
    }

    // ---- Undoing, from the words of a record without its sort and length

    /// Before a send whose record has these words.
    fn unsending(mut self, words: &[u64]) -> Option<Network> {
        let [seq, lost, replayed, delayed] = words.try_into().ok()?;
        self.sent = self.sent.checked_sub(1)?;
        self.pending.retain(|record| record[1] <= seq);
        self.seq = seq;
        self.lost = lost;
        self.replayed = replayed;
        self.delayed = delayed;
        Some(self)
    }

    fn untaking(mut self, words: &[u64]) -> Option<Network> {
        let taken = words.len() / 8;
        if words.len() % 8 != 0 || self.pending.len() + taken > CAPACITY {
            return None;
        }
        self.delivered = self.delivered.checked_sub(taken as u64)?;
        self.pending.extend(words.chunks(8).map(record_of));
        self.sort();
        Some(self)
    }

    fn unchoosing(mut self, words: &[u64]) -> Option<Network> {
        self.options = words.try_into().ok()?;
        (self.options[4] <= 1).then_some(self)
    }

    /// Before the call of a record of this sort, if the record fits and leaves a well formed network.
    pub fn before(self, sort: u64, words: &[u64]) -> Option<Network> {
        let undone = match sort {
            1 => self.unsending(words),
            2 => self.untaking(words),
            3 => self.unchoosing(words),
            _ => None,
        };
        undone.filter(Network::is_well_formed)
    }
}

fn record_of(words: &[u64]) -> Record {
    words.try_into().expect("a record is eight words")
}
