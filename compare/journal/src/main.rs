//! Compares the proved journal with a plain evaluation of its rules, which knows nothing of our code.
//!
//! `journal [--seed N] [--count N] [--plant NAME] [--sample FILE]`: the seed, how many calls and words put there are at least, a
//! fault to plant in our side, and a file to which the sample is written instead of comparing. Ends with status 0 if there is no
//! difference and every outcome was met.

mod corners;
mod fate;
mod forged;
mod inputs;
mod night;
mod plain;
mod planted;
mod standing;
mod words;

use calls::arguments::{Agrees, Compared, Comparison};
use calls::case::Call;
use calls::draws::Draws;
use calls::sample::Sample;
use calls::tally::outcomes;
use std::process::ExitCode;

/// How many calls and words put are compared at least, unless told.
const COUNT: u64 = 1_000_000;

/// The sample's seed, how many calls it has at least, and about how many a night of it has at most.
const SAMPLE_SEED: u64 = 323;
const SAMPLE_CALLS: u64 = 1_900;
const SAMPLE_NIGHT: usize = 240;

/// The refusals that the sample has of each call.
const WANTED: [(Call, &[u64]); 5] = [
    (Call::JournalMark, &[32]),
    (Call::JournalSend, &[23, 24, 25, 26, 27, 28, 29, 31, 32]),
    (Call::JournalTakeDue, &[23, 30, 31, 32]),
    (Call::JournalSetOptions, &[20, 21, 22, 23, 31, 32]),
    (Call::JournalRewind, &[23, 31, 33]),
];

const OUTCOMES: [&str; 21] = [
    "begun",
    "options set",
    "lost",
    "replayed",
    "queued once",
    "not faulted",
    "delayed",
    "left full",
    "none taken",
    "some taken",
    "all taken",
    "network's word put",
    "journal's word put",
    "marked",
    "rewound 0",
    "rewound 1",
    "rewound more",
    "rewound over a take",
    "rewound over options",
    "forged refused",
    "forged rewound",
];

fn main() -> ExitCode {
    comparison().run()
}

fn comparison() -> Comparison {
    let refusals: Vec<u64> = (20..=33).collect();
    Comparison {
        name: "journal",
        count: COUNT,
        sample_seed: SAMPLE_SEED,
        outcomes: outcomes(&OUTCOMES, &refusals),
        plants: &planted::ALL,
        compare,
        sample,
    }
}

fn compare(compared: &mut Compared, seed: u64, count: u64) -> Agrees {
    let mut draws = Draws::new(seed);
    let mut nights = corners::nights();
    let (mut runs, mut steps, mut told, mut over_put) = (0, 0, 0, 0);
    while steps < count || !nights.is_empty() {
        let most = [60, 60, 200, 600, 2_000][draws.below(5)];
        let night = nights
            .pop()
            .unwrap_or_else(|| inputs::night(most, &mut draws));
        for case in &night.cases {
            compared.case(case)?;
        }
        compared.meet("network's word put", night.puts[0]);
        compared.meet("journal's word put", night.puts[1]);
        runs += 1;
        steps += night.steps() as u64;
        told += night.told;
        over_put += night.over_put;
    }
    compared.tell(format!(
        "in {runs} nights, with {steps} calls and words put, {told} of them told by the standing calls"
    ));
    compared.tell(format!("{over_put} rewinds went over words that were put"));
    Ok(())
}

/// The corners, random nights, and nights with wrong expectations.
fn sample(sample: &mut Sample, seed: u64) {
    let mut draws = Draws::new(seed);
    for night in corners::nights() {
        night.cases.iter().for_each(|case| sample.add(case));
    }
    while sample.calls() < SAMPLE_CALLS {
        let night = inputs::night(SAMPLE_NIGHT, &mut draws);
        night.cases.iter().for_each(|case| sample.add(case));
    }
    while !sample.is_complete(&WANTED) {
        let night = inputs::night(SAMPLE_NIGHT, &mut draws);
        sample.add_missing(&WANTED, &night.cases);
    }
    let calls = WANTED.map(|(call, _)| call);
    sample.add_wrong(&calls, || inputs::night(SAMPLE_NIGHT, &mut draws).cases);
}

#[cfg(test)]
mod tests {
    use super::*;

    #[test]
    fn each_planted_fault_is_reported() {
        assert!(!comparison().differs(None, 4_000));
        for (name, plant) in planted::ALL {
            assert!(comparison().differs(Some(plant), 4_000), "{name}");
        }
    }
}
