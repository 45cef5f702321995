//! Faults that can be planted in our side, to see that the comparison reports them.

use calls::case::{Call, Case, Row};
use calls::raw::{head, RECORD_WORDS};
use calls::rows::Rows;
use calls::run::Plant;

pub const ALL: [(&str, Plant); 10] = [
    ("number", number),
    ("order", order),
    ("delayed", delayed),
    ("behind", behind),
    ("refused", refused),
    ("place", place),
    ("copy", copy),
    ("unused", unused),
    ("told", told),
    ("kind", kind),
];

/// A queue that is full is refused by 28.
fn number(_: &Case, answer: &mut u64, _: &mut Rows) {
    if *answer == 29 {
        *answer = 28;
    }
}

/// The first two records of a take change places.
fn order(case: &Case, answer: &mut u64, rows: &mut Rows) {
    if case.call == Call::NetworkTakeDue && *answer == 0 && rows.row(Row::Told1)[0] > 1 {
        rows.row_mut(Row::Out)[..2 * RECORD_WORDS].rotate_left(RECORD_WORDS);
    }
}

/// A replayed message that is delayed twice counts once.
fn delayed(case: &Case, answer: &mut u64, rows: &mut Rows) {
    let told = rows.row(Row::Told4);
    if case.call == Call::NetworkSend && *answer == 0 && told[3] == 2 {
        rows.row_mut(Row::Head)[head::DELAYED] -= 1;
    }
}

/// A take leaves the last record where it stood.
fn behind(case: &Case, answer: &mut u64, rows: &mut Rows) {
    if case.call == Call::NetworkTakeDue && *answer == 0 && rows.row(Row::Told1)[0] > 0 {
        let pending = rows.row(Row::Head)[head::PENDING] as usize;
        rows.row_mut(Row::Records)[RECORD_WORDS * pending] = 1;
    }
}

/// A refused send tells that it was lost.
fn refused(case: &Case, answer: &mut u64, rows: &mut Rows) {
    if case.call == Call::NetworkSend && *answer != 0 {
        rows.row_mut(Row::Told4)[0] = 1;
    }
}

/// The place of a tick's refusal counts from 1.
fn place(case: &Case, answer: &mut u64, _: &mut Rows) {
    if case.call == Call::NetworkTick && *answer != 0 {
        *answer += 1;
    }
}

/// The due ticks of a fate's two copies change places.
fn copy(case: &Case, answer: &mut u64, rows: &mut Rows) {
    if case.call == Call::Fate && *answer == 0 && rows.row(Row::Told6)[1] == 1 {
        rows.row_mut(Row::Told6)[4..].swap(0, 1);
    }
}

/// An extra of 0 that comes first counts as not used by a fate.
fn unused(case: &Case, answer: &mut u64, rows: &mut Rows) {
    if case.call == Call::Fate && *answer == 0 && rows.row(Row::Told6)[3] > 0 {
        rows.row_mut(Row::Told6)[3] -= u64::from(rows.row(Row::Extras)[0] == 0);
    }
}

/// A fate that lacks an extra tells that it is lost.
fn told(case: &Case, answer: &mut u64, rows: &mut Rows) {
    if case.call == Call::Fate && *answer == 27 {
        rows.row_mut(Row::Told6)[0] = 1;
    }
}

/// A fate's kind is looked at before its options.
fn kind(case: &Case, answer: &mut u64, _: &mut Rows) {
    if case.call == Call::Fate && *answer != 0 && case.numbers[6] > 10 {
        *answer = 24;
    }
}
