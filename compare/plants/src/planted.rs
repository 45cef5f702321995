//! Faults that can be planted in our side, to see that the comparison reports them.

use calls::case::{Call, Case, Row};
use calls::raw::{core, plants};
use calls::rows::Rows;
use calls::run::Plant;

pub const ALL: [(&str, Plant); 7] = [
    ("nonce", nonce),
    ("count", count),
    ("order", order),
    ("verdict", verdict),
    ("number", number),
    ("last", last),
    ("written", written),
];

/// A fault that is no reboot clears the nonce's word.
fn nonce(case: &Case, answer: &mut u64, rows: &mut Rows) {
    if case.call == Call::PlantsApply && *answer == 0 && case.numbers[1] != 2 {
        rows.row_mut(Row::Told1)[0] = 0;
    }
}

/// The crash of a plant that is down counts.
fn count(case: &Case, answer: &mut u64, rows: &mut Rows) {
    let is_down = case.met.iter().any(|met| met == "crash of a down plant");
    if *answer == 0 && is_down {
        rows.row_mut(Row::Plants)[plants::CRASHES] += 1;
    }
}

/// The first two ids of a core change places.
fn order(case: &Case, answer: &mut u64, rows: &mut Rows) {
    if case.call == Call::PlantsChooseCore && *answer == 0 {
        rows.row_mut(Row::Core).swap(core::IDS, core::IDS + 1);
    }
}

/// A receiver that is down and cut off is told as cut off.
fn verdict(case: &Case, answer: &mut u64, rows: &mut Rows) {
    if case.call != Call::PlantsVerdict || *answer != 0 {
        return;
    }
    let to = case.numbers[2] as usize;
    if rows.row(Row::Plants)[plants::PARTITIONED + to] == 1 {
        rows.row_mut(Row::Told1)[0] = 2;
    }
}

/// Too few picks are refused as a bad pick is.
fn number(case: &Case, answer: &mut u64, _: &mut Rows) {
    if case.call == Call::PlantsChooseCore && *answer == 46 {
        *answer = 47;
    }
}

/// Of verdicts in one call the last is told as that on the first.
fn last(case: &Case, answer: &mut u64, rows: &mut Rows) {
    if case.call != Call::PlantsVerdicts || *answer != 0 {
        return;
    }
    if let Some(last) = (case.numbers[1] as usize).checked_sub(1) {
        let row = rows.row_mut(Row::Verdicts);
        row[last] = row[0];
    }
}

/// Verdicts that are refused at a plant write a word.
fn written(case: &Case, answer: &mut u64, rows: &mut Rows) {
    if case.call == Call::PlantsVerdicts && *answer == 41 {
        rows.row_mut(Row::Verdicts)[0] = 0;
    }
}
