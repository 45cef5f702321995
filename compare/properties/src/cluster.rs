//! A snapshot of plants, as both sides are given it.

use crate::state_machine::{Accumulator, Op, OpKind};
use vsr_rs::{LogEntry, Replica};

/// Client, request, op id and op body.
pub type Entry = [u64; 4];

#[derive(Clone)]
pub struct Plant {
    pub recovering: u64,
    pub commit: u64,
    pub op: u64,
    pub log: Vec<Entry>,
    /// Which of [`VALUES`] it holds.
    pub value: usize,
}

/// The values that our program knows by number.
pub const VALUES: [i64; 6] = [0, 1, -1, i64::MAX, -i64::MAX, 77];

impl Plant {
    pub fn new() -> Plant {
        Plant {
            recovering: 0,
            commit: 0,
            op: 0,
            log: Vec::new(),
            value: 0,
        }
    }

    pub fn words(&self) -> [u64; 4] {
        [self.recovering, self.commit, self.op, self.log.len() as u64]
    }

    pub fn replica(&self) -> Replica<Accumulator> {
        Replica {
            recovering: self.recovering == 1,
            commit: self.commit as usize,
            op: self.op as usize,
            entries: self.log.iter().map(rust_entry).collect(),
            machine: Accumulator {
                value: VALUES[self.value],
                applied: Vec::new(),
            },
        }
    }
}

fn rust_entry(entry: &Entry) -> LogEntry<Op> {
    LogEntry {
        client_id: entry[0] as usize,
        request_number: entry[1] as usize,
        op: Op {
            id: entry[2],
            kind: OpKind::Add(entry[3] as i64),
        },
    }
}

pub fn words_of(entry: &LogEntry<Op>) -> Entry {
    let OpKind::Add(body) = entry.op.kind;
    [
        entry.client_id as u64,
        entry.request_number as u64,
        entry.op.id,
        body as u64,
    ]
}
