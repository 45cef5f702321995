//! A comparison by its arguments, `[--seed N] [--count N] [--plant NAME] [--sample FILE]`: it compares, perhaps with a fault planted
//! in our side, or writes its part of the stored sample.

use crate::case::Case;
use crate::run::{Difference, Plant, Run};
use crate::sample::Sample;
use crate::tally::Tally;
use std::process::ExitCode;
use std::{env, fs};

pub type Agrees = Result<(), Box<Difference>>;

/// What a comparison does, and the numbers that it takes where none are told.
pub struct Comparison {
    pub name: &'static str,
    pub count: u64,
    pub sample_seed: u64,
    /// The outcomes that a run must meet.
    pub outcomes: Vec<String>,
    /// Faults that can be planted in our side.
    pub plants: &'static [(&'static str, Plant)],
    /// Compares the cases of a seed, so many at least.
    pub compare: fn(&mut Compared, u64, u64) -> Agrees,
    /// Adds the cases of the sample.
    pub sample: fn(&mut Sample, u64),
}

/// The cases compared so far.
pub struct Compared {
    run: Run,
    tally: Tally,
    calls: u64,
    /// What else is to be told.
    told: Vec<String>,
}

impl Compared {
    pub fn case(&mut self, case: &Case) -> Agrees {
        self.run.case(case)?;
        self.calls += 1;
        for outcome in &case.met {
            self.tally.meet(outcome, 1);
        }
        Ok(())
    }

    /// An outcome that is none of a case's.
    pub fn meet(&mut self, outcome: &str, times: u64) {
        self.tally.meet(outcome, times);
    }

    pub fn tell(&mut self, line: String) {
        self.told.push(line);
    }
}

#[derive(Default)]
struct Arguments {
    seed: Option<u64>,
    count: Option<u64>,
    plant: Option<Plant>,
    sample: Option<String>,
}

impl Comparison {
    pub fn run(&self) -> ExitCode {
        let Some(arguments) = self.arguments(env::args().skip(1)) else {
            let plants: Vec<&str> = self.plants.iter().map(|(name, _)| *name).collect();
            eprintln!(
                "usage: {} [--seed N] [--count N] [--plant {}] [--sample FILE]",
                self.name,
                plants.join("|")
            );
            return ExitCode::from(2);
        };
        match &arguments.sample {
            None => self.compared(&arguments),
            Some(file) => {
                let mut sample = Sample::default();
                (self.sample)(&mut sample, arguments.seed.unwrap_or(self.sample_seed));
                written(file, sample)
            }
        }
    }

    /// Whether a difference is found in the cases of the first seed, so many at least, with a fault planted in our side or with none.
    pub fn differs(&self, plant: Option<Plant>, count: u64) -> bool {
        let mut compared = self.none_yet(plant);
        (self.compare)(&mut compared, 1, count).is_err()
    }

    fn none_yet(&self, plant: Option<Plant>) -> Compared {
        Compared {
            run: Run::new(plant),
            tally: Tally::of(self.outcomes.clone()),
            calls: 0,
            told: Vec::new(),
        }
    }

    fn compared(&self, arguments: &Arguments) -> ExitCode {
        let seed = arguments.seed.unwrap_or(1);
        let mut compared = self.none_yet(arguments.plant);
        let agrees = (self.compare)(&mut compared, seed, arguments.count.unwrap_or(self.count));
        let calls = compared.calls;
        if let Err(difference) = agrees {
            print!("a difference after {calls} calls that agree\n{difference}");
            return ExitCode::FAILURE;
        }
        println!("seed {seed}: {calls} calls compared");
        for line in &compared.told {
            println!("{line}");
        }
        compared.tally.print();
        let missing = compared.tally.missing();
        if !missing.is_empty() {
            println!("never met, so that the run says nothing about it: {missing:?}");
            return ExitCode::FAILURE;
        }
        println!("no difference");
        ExitCode::SUCCESS
    }

    fn arguments(&self, mut words: impl Iterator<Item = String>) -> Option<Arguments> {
        let mut arguments = Arguments::default();
        while let Some(word) = words.next() {
            let value = words.next()?;
            match word.as_str() {
                "--seed" => arguments.seed = Some(value.parse().ok()?),
                "--count" => arguments.count = Some(value.parse().ok()?),
                "--sample" => arguments.sample = Some(value),
                "--plant" => {
                    let plant = self.plants.iter().find(|(name, _)| *name == value)?;
                    arguments.plant = Some(plant.1);
                }
                _ => return None,
            }
        }
        Some(arguments)
    }
}

/// Writes a sample to a file.
pub fn written(file: &str, sample: Sample) -> ExitCode {
    let calls = sample.calls();
    let bytes = sample.end();
    if let Err(error) = fs::write(file, &bytes) {
        eprintln!("{file}: {error}");
        return ExitCode::FAILURE;
    }
    println!("{calls} calls in {} bytes", bytes.len());
    ExitCode::SUCCESS
}
