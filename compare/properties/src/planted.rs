//! Faults that can be planted in our side, to see that the comparison reports them.

use calls::case::{Call, Case, Row};
use calls::raw::{told, LOG_ENTRIES, LOG_WORDS};
use calls::rows::Rows;
use calls::run::Plant;

pub const ALL: [(&str, Plant); 5] = [
    ("index", index),
    ("broken", broken),
    ("body", body),
    ("reboot", reboot),
    ("number", number),
];

fn is_broken(case: &Case, answer: u64, rows: &Rows) -> bool {
    case.call == Call::PropertiesTick && answer == 0 && rows.row(Row::Told4)[told::PROPERTY] != 0
}

/// An index counts from 1.
fn index(case: &Case, answer: &mut u64, rows: &mut Rows) {
    if is_broken(case, *answer, rows) {
        rows.row_mut(Row::Told4)[told::INDEX] += 1;
    }
}

/// A break writes a last commit.
fn broken(case: &Case, answer: &mut u64, rows: &mut Rows) {
    if is_broken(case, *answer, rows) {
        rows.row_mut(Row::Tracker)[2] += 1;
    }
}

/// The last canonical entry's body is not written.
fn body(case: &Case, answer: &mut u64, rows: &mut Rows) {
    let tracker = rows.row_mut(Row::Tracker);
    let (n, canonical) = (tracker[0] as usize, tracker[1] as usize);
    if case.call == Call::PropertiesTick && *answer == 0 && canonical > 0 {
        tracker[n + 4 * canonical + 1] = 0;
    }
}

/// A reboot clears the plant's first seen id, too.
fn reboot(case: &Case, answer: &mut u64, rows: &mut Rows) {
    if case.call == Call::PropertiesReboot && *answer == 0 {
        let (n, id) = (case.numbers[0] as usize, case.numbers[1] as usize);
        rows.row_mut(Row::Tracker)[2 + n + LOG_WORDS + LOG_ENTRIES * id] = 0;
    }
}

/// A bad tracker is refused as a bad snapshot is.
fn number(_: &Case, answer: &mut u64, _: &mut Rows) {
    if *answer == 61 {
        *answer = 60;
    }
}
