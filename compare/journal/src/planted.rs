//! Faults that can be planted in our side, to see that the comparison reports them.

use calls::case::{Call, Case, Row};
use calls::raw::head;
use calls::rows::Rows;
use calls::run::Plant;

pub const ALL: [(&str, Plant); 6] = [
    ("held", held),
    ("length", length),
    ("rewound", rewound),
    ("past", past),
    ("mark", mark),
    ("number", number),
];

/// An accepted send is not counted as a call held.
fn held(case: &Case, answer: &mut u64, rows: &mut Rows) {
    if case.call == Call::JournalSend && *answer == 0 {
        rows.row_mut(Row::Journal)[0] -= 1;
    }
}

/// The record of options says that it has six words.
fn length(case: &Case, answer: &mut u64, rows: &mut Rows) {
    if case.call == Call::JournalSetOptions && *answer == 0 {
        let used = rows.row(Row::Journal)[1] as usize;
        rows.row_mut(Row::Journal)[used - 1] = 6;
    }
}

/// A rewind that goes over a call leaves the copies delayed.
fn rewound(case: &Case, answer: &mut u64, rows: &mut Rows) {
    if case.call == Call::JournalRewind && *answer == 0 && case.numbers[0] > 0 {
        rows.row_mut(Row::Head)[head::DELAYED] += 1;
    }
}

/// A take writes a word past the words lent.
fn past(case: &Case, answer: &mut u64, rows: &mut Rows) {
    if case.call == Call::JournalTakeDue && *answer == 0 {
        let lent = case.numbers[2] as usize;
        rows.row_mut(Row::Journal)[lent] = 0;
    }
}

/// A mark keeps word 0.
fn mark(case: &Case, answer: &mut u64, rows: &mut Rows) {
    if case.call == Call::JournalMark && *answer == 0 {
        rows.row_mut(Row::Journal)[0] = 1;
    }
}

/// A rewind too far is refused as a bad journal is.
fn number(_: &Case, answer: &mut u64, _: &mut Rows) {
    if *answer == 33 {
        *answer = 31;
    }
}
