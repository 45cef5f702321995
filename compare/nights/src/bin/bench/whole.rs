//! Whole nights.

use crate::timing::{in_turn, row, thread_time, timed, Row};
use nights::night::{by_ours, by_rust, Night, Verdict};
use std::time::Duration;

const NIGHTS: usize = 100;
const RUNS: usize = 5;

/// Wall time, and CPU time of the thread.
#[derive(Clone, Copy, Default)]
struct Times {
    wall: Duration,
    cpu: Duration,
}

/// The time of all nights, and the ratio of each.
pub fn rows() -> (Vec<Row>, String) {
    let nights: Vec<Night> = (1..)
        .map(Night::of)
        .filter(|night| ours(night).1 == Verdict::Passed)
        .take(NIGHTS)
        .collect();
    for night in &nights {
        assert_eq!(rust(night).1, Verdict::Passed);
    }
    let (by_rust, by_ours) = in_turn(10, || all(&nights, rust), || all(&nights, ours));
    let of = |times: &[Times], read: fn(&Times) -> Duration| times.iter().map(read).collect();
    let rows = SORTS.map(|(name, read)| {
        row(
            format!("{NIGHTS} whole nights{name}"),
            of(&by_rust, read),
            of(&by_ours, read),
        )
    });
    let told = SORTS.map(|(name, read)| told(name, &nights, read));
    (rows.into(), told.join("\n"))
}

/// Wall time and CPU time, by a name behind what they are of.
const SORTS: [(&str, fn(&Times) -> Duration); 2] = [
    ("", |times| times.wall),
    (", CPU time of the thread", |times| times.cpu),
];

/// The sum of nights on one side.
fn all(nights: &[Night], run: fn(&Night) -> (Times, Verdict)) -> Times {
    nights.iter().fold(Times::default(), |sum, night| {
        let (Times { wall, cpu }, _) = run(night);
        Times {
            wall: sum.wall + wall,
            cpu: sum.cpu + cpu,
        }
    })
}

/// The spread of the ratios of single nights.
fn told(name: &str, nights: &[Night], read: fn(&Times) -> Duration) -> String {
    let mut ratios: Vec<f64> = nights.iter().map(|night| ratio(night, read)).collect();
    ratios.sort_by(f64::total_cmp);
    let at = |percent: usize| ratios[(NIGHTS - 1) * percent / 100];
    format!(
        "ours/Rust of each of the {NIGHTS} nights{name}: median {:.2}, 10th percentile {:.2}, 90th {:.2}",
        at(50),
        at(10),
        at(90)
    )
}

fn ratio(night: &Night, read: fn(&Times) -> Duration) -> f64 {
    let best = |run: fn(&Night) -> (Times, Verdict)| {
        let times = (0..RUNS).map(|_| read(&run(night).0));
        times.min().expect("there are runs").as_secs_f64()
    };
    best(ours) / best(rust)
}

fn both_times(run: impl FnOnce() -> Verdict) -> (Times, Verdict) {
    let before = thread_time();
    let (wall, verdict) = timed(run);
    let cpu = thread_time() - before;
    (Times { wall, cpu }, verdict)
}

fn rust(night: &Night) -> (Times, Verdict) {
    let (mut simulator, faults) = (by_rust::simulator(night), by_rust::faults(night));
    both_times(|| by_rust::run(&mut simulator, &faults))
}

fn ours(night: &Night) -> (Times, Verdict) {
    let (mut simulator, faults) = (by_ours::simulator(night), by_ours::faults(night));
    both_times(|| by_ours::run(&mut simulator, &faults))
}
