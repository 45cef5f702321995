//! Compares the proved reader of fault scripts with the Rust's.
//!
//! `scripts [--seed N] [--count N] [--plant FAULT] [--sample FILE]`: the seed of the random scripts, how many of them are
//! compared beside the fixed ones, a fault to plant in our side, and a file to which the sample is written instead of
//! comparing. Ends with status 0 if there is no difference and every outcome was met.

use bellmantle::raw;
use calls::arguments::written;
use scripts::comparison::{compare, Reply, Tally};
use scripts::inputs::cases;
use scripts::planted::{self, planted, Plant};
use scripts::sample::sample;
use std::env;
use std::process::ExitCode;

const USAGE: &str =
    "usage: scripts [--seed N] [--count N] [--plant comma|order|line|white|word|byte|why|id|latin|letter] [--sample FILE]";

struct Arguments {
    seed: u64,
    count: usize,
    plant: Option<Plant>,
    sample: Option<String>,
}

fn main() -> ExitCode {
    let Some(arguments) = arguments() else {
        eprintln!("{USAGE}");
        return ExitCode::from(2);
    };
    if let Some(file) = &arguments.sample {
        return written(file, sample());
    }
    let mut reader = planted(arguments.plant, ours);
    let mut tally = Tally::default();
    for case in cases(arguments.seed, arguments.count) {
        match compare(case, &mut reader) {
            Ok(outcome) => tally.add(outcome),
            Err(difference) => {
                print!(
                    "a difference after {} scripts that agree\n{difference}",
                    tally.total()
                );
                return ExitCode::FAILURE;
            }
        }
    }
    print!(
        "seed {}: {} scripts compared\n{tally}",
        arguments.seed,
        tally.total()
    );
    if !tally.is_full() {
        println!("an outcome was never met: the run says nothing about it");
        return ExitCode::FAILURE;
    }
    println!("no difference");
    ExitCode::SUCCESS
}

fn ours(text: &[u8], words: &mut [u64]) -> Reply {
    Reply::of_word(raw::parse_script(text, words))
}

fn arguments() -> Option<Arguments> {
    let mut arguments = Arguments {
        seed: 1,
        count: 200_000,
        plant: None,
        sample: None,
    };
    let mut words = env::args().skip(1);
    while let Some(word) = words.next() {
        let value = words.next()?;
        match word.as_str() {
            "--seed" => arguments.seed = value.parse().ok()?,
            "--count" => arguments.count = value.parse().ok()?,
            "--sample" => arguments.sample = Some(value),
            "--plant" => {
                arguments.plant = Some(planted::ALL.iter().find(|(name, _)| *name == value)?.1)
            }
            _ => return None,
        }
    }
    Some(arguments)
}
