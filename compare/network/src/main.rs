//! Compares the proved network with the Rust's.
//!
//! `network [--seed N] [--count N] [--plant NAME] [--sample FILE]`: the seed, how many calls and words put there are at least beside
//! the ticks and fates, a fault to plant in our side, and a file to which the sample is written instead of comparing. Ends with status 0 if
//! there is no difference and every outcome was met.

mod fates;
mod inputs;
mod planted;
mod run;

use calls::arguments::{Agrees, Compared, Comparison};
use calls::case::{Call, Case, Row};
use calls::draws::Draws;
use calls::raw::head;
use calls::sample::Sample;
use calls::tally::outcomes;
use std::process::ExitCode;

/// How many calls and words put are compared at least, unless told; and a call in runs of ticks, and a fate, for so many of them.
const COUNT: u64 = 1_200_000;
const TICK_ONCE_IN: u64 = 20;
const FATE_ONCE_IN: u64 = 4;

/// The sample's seed, and how many calls of runs and of ticks, and how many fates, it has at least.
const SAMPLE_SEED: u64 = 2_027;
const SAMPLE_CALLS: u64 = 1_200;
const SAMPLE_TICKS: u64 = 200;
const SAMPLE_FATES: usize = 150;

/// How much of a run has wrong expectations, at most.
const SAMPLE_WRONG: usize = 80;

/// The refusals that the sample has of each call.
const WANTED: [(Call, &[u64]); 7] = [
    (Call::NetworkNew, &[20, 21, 22]),
    (Call::NetworkSetOptions, &[20, 21, 22, 23]),
    (Call::NetworkSend, &[23, 24, 25, 26, 27, 28, 29]),
    (Call::NetworkTakeDue, &[23, 30]),
    (Call::NetworkPending, &[23]),
    (Call::NetworkInFlight, &[23, 30]),
    (Call::NetworkTick, &[23, 24, 25, 26, 27, 28, 29, 30]),
];

const OUTCOMES: [&str; 14] = [
    "new",
    "options set",
    "lost",
    "replayed",
    "queued once",
    "not faulted",
    "delayed",
    "left full",
    "none taken",
    "some taken",
    "all taken",
    "pending",
    "in flight",
    "word put",
];

fn main() -> ExitCode {
    comparison().run()
}

fn comparison() -> Comparison {
    let refusals: Vec<u64> = (20..=30).collect();
    let mut names = outcomes(&OUTCOMES, &refusals);
    names.push("tick".to_string());
    names.extend((23..=30).map(|number| format!("tick: refusal {number}")));
    names.extend(outcomes(&BOUNDARY, &[]));
    names.extend(fates::outcomes());
    Comparison {
        name: "network",
        count: COUNT,
        sample_seed: SAMPLE_SEED,
        outcomes: names,
        plants: &planted::ALL,
        compare,
        sample,
    }
}

fn compare(compared: &mut Compared, seed: u64, count: u64) -> Agrees {
    let mut draws = Draws::new(seed);
    let (mut runs, mut steps, mut by_rust) = (0, 0, 0);
    while steps < count {
        let run = inputs::run(&mut draws);
        for case in &run.cases {
            compared.case(case)?;
            by_rust += u64::from(is_of_the_rust(case));
        }
        compared.meet("word put", run.puts);
        steps += run.cases.len() as u64 + run.puts;
        runs += 1;
    }
    compared.tell(format!(
        "in {runs} runs, with {steps} calls and words put; {by_rust} calls answered by the Rust"
    ));
    let mut draws = Draws::new(!seed);
    let mut ticks = 0;
    while ticks < count / TICK_ONCE_IN {
        for mut case in inputs::ticks(&mut draws).cases {
            if case.call != Call::NetworkTick {
                case.met.clear();
            }
            case.met.extend(boundary(&case).map(Into::into));
            compared.case(&case)?;
            ticks += 1;
        }
    }
    compared.tell(format!("and {ticks} calls in runs of ticks"));
    let mut draws = Draws::new(seed.rotate_left(32));
    let fates = count / FATE_ONCE_IN;
    for _ in 0..fates {
        compared.case(&inputs::fate(&mut draws))?;
    }
    compared.tell(format!("and {fates} fates alone"));
    Ok(())
}

/// What only the boundary has, and the Rust has not.
const BOUNDARY: [&str; 3] = [
    "a flag that is any number",
    "a head with a flag over 1",
    "a head with bits of no probability",
];

/// Which of these a case is about: options that are taken, or a word that was put into the head before it.
fn boundary(case: &Case) -> Option<&'static str> {
    let sets_options = [Call::NetworkNew, Call::NetworkSetOptions].contains(&case.call);
    if sets_options && case.answer == 0 && case.numbers[4] > 1 {
        return Some(BOUNDARY[0]);
    }
    if case.call.refusal(case.answer) != 23 {
        return None;
    }
    let put = case.before.iter().find(|words| words.row == Row::Head)?;
    match put.at {
        head::FLAG => Some(BOUNDARY[1]),
        head::LOSS | head::REPLAY => Some(BOUNDARY[2]),
        _ => None,
    }
}

/// Whether the Rust answered a call: not refused, but for options, and no take at the last tick.
fn is_of_the_rust(case: &Case) -> bool {
    match case.call {
        Call::NetworkTakeDue => case.answer == 0 && case.numbers[0] != u64::MAX,
        _ => case.answer < 23,
    }
}

/// Random runs, then ticks, then runs with wrong expectations; and the same of fates.
fn sample(sample: &mut Sample, seed: u64) {
    let mut draws = Draws::new(seed);
    while sample.calls() < SAMPLE_CALLS {
        let run = inputs::run(&mut draws);
        run.cases.iter().for_each(|case| sample.add(case));
    }
    let runs = sample.calls();
    while sample.calls() < runs + SAMPLE_TICKS {
        let run = inputs::ticks(&mut draws);
        run.cases.iter().for_each(|case| sample.add(case));
    }
    while !sample.is_complete(&WANTED) {
        sample.add_missing(&WANTED, &inputs::run(&mut draws).cases);
        sample.add_missing(&WANTED, &inputs::ticks(&mut draws).cases);
    }
    let calls = WANTED.map(|(call, _)| call);
    sample.add_wrong(&calls, || {
        let mut cases = inputs::run(&mut draws).cases;
        cases.truncate(SAMPLE_WRONG);
        cases.extend(inputs::ticks(&mut draws).cases);
        cases
    });
    sample_fates(sample, &mut Draws::new(!seed));
}

/// Fates, every outcome and refusal among them, and behind them some with wrong expectations.
fn sample_fates(sample: &mut Sample, draws: &mut Draws) {
    let mut missing = fates::outcomes();
    let mut count = 0;
    while count < SAMPLE_FATES || !missing.is_empty() {
        let case = inputs::fate(draws);
        missing.retain(|name| !case.met.contains(&name.into()));
        sample.add(&case);
        count += 1;
    }
    sample.add_wrong(&[Call::Fate], || vec![inputs::fate(draws)]);
}

#[cfg(test)]
mod tests {
    use super::*;

    #[test]
    fn each_planted_fault_is_reported() {
        assert!(!comparison().differs(None, 4_000));
        for (name, plant) in planted::ALL {
            assert!(comparison().differs(Some(plant), 4_000), "{name}");
        }
    }
}
