//! Compares the proved plants and the choice of a core with the Rust's.
//!
//! `plants [--seed N] [--count N] [--plant NAME] [--sample FILE]`: the seed, how many cases there are of each of apply, verdict and
//! core (of verdicts a quarter), a fault to plant in our side, and a file to which the sample is written instead of comparing. Ends with status 0 if there
//! is no difference and every outcome was met.

mod case;
mod expected;
mod inputs;
mod planted;

use calls::arguments::{Agrees, Compared, Comparison};
use calls::case::Call;
use calls::draws::Draws;
use calls::sample::Sample;
use calls::tally::outcomes;
use case::{Answer, Case, VERDICTS_REFUSED};
use std::collections::BTreeMap;
use std::process::ExitCode;

/// How many cases of each call are compared, unless told.
const COUNT: u64 = 240_000;

/// How many cases of each sort the sample has.
const SAMPLE: [(Maker, usize); 6] = [
    (inputs::new, 20),
    (inputs::apply, 150),
    (inputs::verdict, 120),
    (inputs::core, 100),
    (inputs::refused_core, 20),
    (inputs::verdicts, 40),
];
const SAMPLE_BOUNDARY: usize = 60;

/// The refusals that the sample has of each call.
const WANTED: [(Call, &[u64]); 5] = [
    (Call::PlantsNew, &[40]),
    (Call::PlantsApply, &[5, 40, 41, 42, 43, 44]),
    (Call::PlantsVerdict, &[24, 40, 41, 42]),
    (Call::PlantsChooseCore, &[40, 42, 43, 45, 46, 47, 48]),
    (Call::PlantsVerdicts, &VERDICTS_REFUSED),
];

const SAMPLE_SEED: u64 = 2_026;

type Maker = fn(&mut Draws) -> Case;

fn main() -> ExitCode {
    comparison().run()
}

fn comparison() -> Comparison {
    let refusals: Vec<u64> = (40..=48).collect();
    let mut names = case::outcomes();
    names.extend(outcomes(&[], &refusals));
    names.extend(outcomes(&inputs::BOUNDARY, &[]));
    Comparison {
        name: "plants",
        count: COUNT,
        sample_seed: SAMPLE_SEED,
        outcomes: names,
        plants: &planted::ALL,
        compare,
        sample,
    }
}

fn compare(compared: &mut Compared, seed: u64, count: u64) -> Agrees {
    let mut draws = Draws::new(seed);
    let makers: [(Maker, u64); 4] = [
        (inputs::new, 1_000),
        (inputs::apply, count),
        (inputs::verdict, count),
        (inputs::core, count),
    ];
    let mut answered: BTreeMap<String, u64> = BTreeMap::new();
    let mut by_plants: BTreeMap<u64, u64> = BTreeMap::new();
    for (make, count) in makers {
        for _ in 0..count {
            let case = make(&mut draws);
            let call = case.call();
            compared.case(&call)?;
            if !matches!(case.answer, Answer::Refused(_)) {
                *answered.entry(call.call.name().to_string()).or_default() += 1;
                *by_plants.entry(case.before.n).or_default() += 1;
            }
        }
    }
    compared.tell(format!("answered by the Rust: {answered:?}"));
    compared.tell(format!("by the number of plants: {by_plants:?}"));
    let mut draws = Draws::new(!seed);
    for _ in 0..count / 10 {
        let (name, case) = inputs::boundary(&mut draws);
        let mut case = case.call();
        case.met = vec![name.into()];
        compared.case(&case)?;
    }
    let mut draws = Draws::new(seed.rotate_left(32));
    for _ in 0..count / 4 {
        compared.case(&inputs::verdicts(&mut draws).call())?;
    }
    Ok(())
}

/// Of each sort the first so many random cases, and cases with a wrong expectation.
fn sample(sample: &mut Sample, seed: u64) {
    let mut draws = Draws::new(seed);
    for (make, count) in SAMPLE {
        for _ in 0..count {
            sample.add(&make(&mut draws).call());
        }
    }
    for _ in 0..SAMPLE_BOUNDARY {
        sample.add(&inputs::boundary(&mut draws).1.call());
    }
    while !sample.is_complete(&WANTED) {
        for make in [
            inputs::apply,
            inputs::verdict,
            inputs::core,
            inputs::verdicts,
        ] {
            sample.add_missing(&WANTED, &[make(&mut draws).call()]);
        }
    }
    let calls = WANTED.map(|(call, _)| call);
    let makers: [Maker; 5] = [
        inputs::new,
        inputs::apply,
        inputs::verdict,
        inputs::core,
        inputs::verdicts,
    ];
    sample.add_wrong(&calls, || {
        let cases = makers.iter().map(|make| make(&mut draws).call());
        cases.collect()
    });
}

#[cfg(test)]
mod tests {
    use super::*;

    #[test]
    fn each_planted_fault_is_reported() {
        assert!(!comparison().differs(None, 4_000));
        for (name, plant) in planted::ALL {
            assert!(comparison().differs(Some(plant), 4_000), "{name}");
        }
    }
}
