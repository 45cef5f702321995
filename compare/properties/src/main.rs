//! Compares the proved properties with the Rust's.
//!
//! `properties [--seed N] [--count N] [--plant NAME] [--sample FILE]`: the seed of the random runs, how many snapshots are compared
//! at least, and a fault to plant in our side; or the sample is written to a file, and nothing is compared. Ends with status 0 if
//! there is no difference and every outcome was met.

mod cluster;
mod judge;
mod list;
mod planted;
mod runs;
#[path = "../../oracle/stand_ins/state_machine.rs"]
mod state_machine;

include!(concat!(env!("OUT_DIR"), "/properties.rs"));
include!(concat!(env!("OUT_DIR"), "/readable.rs"));

use calls::arguments::{Agrees, Compared, Comparison};
use calls::case::{Call, Case, Row};
use calls::draws::Draws;
use calls::sample::Sample;
use calls::tally::outcomes;
use list::{List, LIST_ROOM};
use std::process::ExitCode;

/// How many snapshots are compared at least, unless told.
const COUNT: u64 = 200_000;

/// The sample's seed, and its length, at which no further run begins.
const SAMPLE_SEED: u64 = 10;
const SAMPLE: usize = 180_000;

/// The length of lists with wrong expectations.
const SAMPLE_WRONG: usize = 20_000;

/// The refusals that the sample has of each call.
const WANTED: [(Call, &[u64]); 4] = [
    (Call::PropertiesFresh, &[40, 61]),
    (Call::PropertiesReboot, &[40, 41, 61]),
    (Call::PropertiesTick, &[40, 60, 61]),
    (Call::PropertiesEnd, &[40, 60, 61]),
];

const OUTCOMES: [&str; 14] = [
    "tick passed",
    "end passed",
    "fresh",
    "reboot",
    "property 1 test 1",
    "property 1 test 2",
    "property 1 test 3",
    "property 3",
    "property 4",
    "property 6",
    "property 7 test 1",
    "property 7 test 2",
    "property 7 test 3",
    "property 7 test 4",
];

fn main() -> ExitCode {
    comparison().run()
}

fn comparison() -> Comparison {
    Comparison {
        name: "properties",
        count: COUNT,
        sample_seed: SAMPLE_SEED,
        outcomes: outcomes(&OUTCOMES, &[40, 41, 60, 61]),
        plants: &planted::ALL,
        compare,
        sample,
    }
}

fn compare(compared: &mut Compared, seed: u64, count: u64) -> Agrees {
    let draws = &mut Draws::new(seed);
    let (mut snapshots, mut longest, mut most) = (0, 0, 0);
    while snapshots < count {
        let list = listed(draws, runs::limit(), false);
        for case in &list.cases {
            compared.case(case)?;
        }
        snapshots += list.cases.iter().filter(|case| judged(case)).count() as u64;
        longest = longest.max(list.longest);
        most = most.max(list.most);
    }
    compared.tell(format!("{snapshots} snapshots judged by the Rust"));
    compared.tell(format!(
        "of up to {most} plants, with logs of up to {longest} entries"
    ));
    Ok(())
}

/// Whether a case is a snapshot that the Rust judged, and none that our rules refuse.
fn judged(case: &Case) -> bool {
    case.call.writes().contains(&Row::Told4) && case.answer == 0
}

/// A list of whole runs, up to some length.
fn listed(draws: &mut Draws, limit: usize, small: bool) -> List {
    let mut list = List::new();
    while list.length < limit {
        runs::run(draws, &mut list, limit, small);
    }
    assert!(list.length <= LIST_ROOM);
    list
}

/// A list of small runs, and some with wrong expectations.
fn sample(sample: &mut Sample, seed: u64) {
    let draws = &mut Draws::new(seed);
    let list = listed(draws, SAMPLE, true);
    list.cases.iter().for_each(|case| sample.add(case));
    assert!(sample.is_complete(&WANTED), "a refusal is not met");
    let calls = WANTED.map(|(call, _)| call);
    sample.add_wrong(&calls, || listed(draws, SAMPLE_WRONG, true).cases);
}

#[cfg(test)]
mod tests {
    use super::*;

    #[test]
    fn each_planted_fault_is_reported() {
        assert!(!comparison().differs(None, 4_000));
        for (name, plant) in planted::ALL {
            assert!(comparison().differs(Some(plant), 4_000), "{name}");
        }
    }
}
