//! Compares whole nights of the Rust's simulator with those of the same simulator over the proved library.
//!
//! `nights [--seed N] [--count N]`: the seed of the first night, and how many whole nights are compared. Ends with status 0
//! if there is no difference and every outcome was met.

use nights::lines::Lines;
use nights::night::{by_ours, by_rust, End, Night, Verdict};
use std::collections::BTreeMap;
use std::env;
use std::panic;
use std::process::ExitCode;

/// How often each outcome was met.
#[derive(Default)]
struct Tally {
    counts: BTreeMap<String, u64>,
}

/// Outcomes that a run must meet.
const MUST: [&str; 15] = [
    "night passed",
    "night failed: no state convergence",
    "night failed: no liveness",
    "core of some plants",
    "core of all plants",
    "script: crash",
    "script: restart",
    "script: reboot",
    "script: partition",
    "script: heal",
    "script: heal-all",
    "message delivered",
    "message dropped, receiver down",
    "message dropped, cut off",
    "message replayed",
];

impl Tally {
    fn add(&mut self, outcome: &str, times: u64) {
        if times > 0 {
            *self.counts.entry(outcome.to_string()).or_default() += times;
        }
    }

    fn night(&mut self, night: &Night, end: &End, lines: &Lines) {
        self.add(&format!("night {}", told(&end.verdict)), 1);
        if end.phase != "Safety" {
            let full = end.core.len() == night.plants();
            self.add("core of all plants", u64::from(full));
            self.add("core of some plants", u64::from(!full));
        }
        for line in night.script.lines().skip(1) {
            let tick: u64 = line
                .split(' ')
                .next()
                .and_then(|word| word.parse().ok())
                .unwrap_or(0);
            let name = line.split(' ').nth(1).unwrap_or("");
            self.add(&format!("script: {name}"), u64::from(tick < end.ticks));
        }
        self.add("tick", end.ticks);
        self.add("line of the log", lines.hashes.len() as u64);
        self.add("message delivered", lines.delivered);
        self.add("message dropped, receiver down", lines.to_crashed);
        self.add("message dropped, cut off", lines.cut_off);
        self.add("message lost", end.lost as u64);
        self.add("message replayed", end.replayed as u64);
        self.add("message delayed", end.delayed as u64);
        self.add("crash", end.crashes as u64);
        self.add("restart", end.restarts as u64);
        self.add("reboot", end.reboots as u64);
    }
}

fn told(verdict: &Verdict) -> String {
    match verdict {
        Verdict::Passed => "passed".to_string(),
        Verdict::Failed(text) => {
            let end = text
                .find("' failed")
                .map_or(text.find(':').unwrap_or(text.len()), |at| at + 1);
            format!("failed: {}", &text[..end])
        }
        Verdict::FewHealthy => "stopped: fewer healthy plants than a quorum (48)".to_string(),
        Verdict::Panicked(text) => format!("stopped by the protocol: {text}"),
        Verdict::Refused(number) => format!("refused: {number}"),
    }
}

/// The nights compared whole, and those that pass a limit of ours, of which the lines up to there are compared.
fn main() -> ExitCode {
    let Some((seed, count)) = arguments() else {
        eprintln!("usage: nights [--seed N] [--count N]");
        return ExitCode::from(2);
    };
    panic::set_hook(Box::new(|_| ()));
    let mut tally = Tally::default();
    let (mut whole, mut past) = (0, BTreeMap::<u64, u64>::new());
    for seed in seed.. {
        if whole == count {
            break;
        }
        let night = Night::of(seed);
        let (expected, rust) = by_rust::listened(&night, None);
        let (seen, ours) = by_ours::listened(&night, None);
        if let Verdict::Refused(number @ (29 | 60)) = seen.verdict {
            if !rust.hashes.starts_with(&ours.hashes) {
                return differs(&night, &expected, &seen, &rust, &ours);
            }
            *past.entry(number).or_default() += 1;
            continue;
        }
        if comparable(&expected) != comparable(&seen) || rust.hashes != ours.hashes {
            return differs(&night, &expected, &seen, &rust, &ours);
        }
        whole += 1;
        tally.night(&night, &expected, &rust);
    }
    report(seed, whole, &past, &tally)
}

/// Where a call stopped in the middle, what it had changed by then is no part of the comparison.
fn comparable(end: &End) -> End {
    let mut end = end.clone();
    if end.snapshot.is_none() {
        end.core.clear();
        end.up.clear();
        (end.crashes, end.restarts) = (0, 0);
    }
    end
}

fn report(seed: u64, whole: u64, past: &BTreeMap<u64, u64>, tally: &Tally) -> ExitCode {
    println!("from seed {seed}: {whole} whole nights compared");
    for (number, nights) in past {
        println!("{nights} more passed a limit (refusal {number}); compared up to there");
    }
    for (outcome, times) in &tally.counts {
        println!("{times:>10} {outcome}");
    }
    let missed: Vec<_> = MUST
        .iter()
        .filter(|&&name| !tally.counts.contains_key(name))
        .collect();
    if !missed.is_empty() {
        println!("never met: {missed:?}");
        return ExitCode::FAILURE;
    }
    println!("no difference");
    ExitCode::SUCCESS
}

fn differs(night: &Night, expected: &End, seen: &End, rust: &Lines, ours: &Lines) -> ExitCode {
    println!("a difference\n{night:?}");
    let longer = rust.hashes.len().max(ours.hashes.len());
    let place = (0..longer).find(|&place| rust.hashes.get(place) != ours.hashes.get(place));
    match place {
        Some(place) => {
            let lines = [by_rust::listened, by_ours::listened].map(|run| run(night, Some(place)).1);
            let [rust, ours] = lines.map(line);
            println!("line {place} of the log, the Rust: {rust}");
            println!("line {place} of the log, ours:     {ours}");
        }
        None => println!("the {longer} lines of the log are the same"),
    }
    println!("the Rust: {expected:?}\nours:     {seen:?}");
    ExitCode::FAILURE
}

fn line(lines: Lines) -> String {
    lines.kept.unwrap_or_else(|| "no line".to_string())
}

fn arguments() -> Option<(u64, u64)> {
    let (mut seed, mut count) = (1, 1_000);
    let mut words = env::args().skip(1);
    while let Some(word) = words.next() {
        let value = words.next()?.parse().ok()?;
        match word.as_str() {
            "--seed" => seed = value,
            "--count" => count = value,
            _ => return None,
        }
    }
    Some((seed, count))
}
