//! Times of single calls, and the table of them.

use std::fmt;
use std::hint::black_box;
use std::time::{Duration, Instant};

/// The 10th percentile, the median and the 90th percentile, in nanoseconds.
#[derive(Clone, Copy)]
pub struct Spread {
    low: f64,
    pub median: f64,
    high: f64,
}

/// A row: what is timed, the Rust's time where it has one, and ours.
pub struct Row {
    pub what: String,
    pub rust: Option<Spread>,
    pub ours: Spread,
}

/// A call, its time and its answer.
pub fn timed<R>(call: impl FnOnce() -> R) -> (Duration, R) {
    let start = Instant::now();
    let answer = black_box(call());
    (start.elapsed(), answer)
}

/// The CPU time that this thread has taken, which other work on the machine does not lengthen.
pub fn thread_time() -> Duration {
    let mut time = libc::timespec {
        tv_sec: 0,
        tv_nsec: 0,
    };
    // SAFETY: the pointer is of a timespec that is ours.
    let failed = unsafe { libc::clock_gettime(libc::CLOCK_THREAD_CPUTIME_ID, &mut time) };
    assert_eq!(failed, 0);
    Duration::new(time.tv_sec as u64, time.tv_nsec as u32)
}

/// What the timer itself takes, which is taken off every time.
pub fn timer_cost() -> f64 {
    spread((0..20_000).map(|_| timed(|| ()).0).collect(), 0.0).median
}

/// Both sides in turn, so that a disturbance meets both; the first tenth is left out.
pub fn in_turn<T>(
    times: usize,
    mut rust: impl FnMut() -> T,
    mut ours: impl FnMut() -> T,
) -> (Vec<T>, Vec<T>) {
    let mut sides = (Vec::new(), Vec::new());
    for _ in 0..times + times / 10 {
        sides.0.push(rust());
        sides.1.push(ours());
    }
    (sides.0.split_off(times / 10), sides.1.split_off(times / 10))
}

/// A row of both sides in turn. Each closure prepares, times its call, and checks its answer.
pub fn both(
    what: impl Into<String>,
    times: usize,
    rust: impl FnMut() -> Duration,
    ours: impl FnMut() -> Duration,
) -> Row {
    let cost = timer_cost();
    let (rust, ours) = in_turn(times, rust, ours);
    Row {
        what: what.into(),
        rust: Some(spread(rust, cost)),
        ours: spread(ours, cost),
    }
}

/// A row of times that were measured already.
pub fn row(what: impl Into<String>, rust: Vec<Duration>, ours: Vec<Duration>) -> Row {
    Row {
        what: what.into(),
        rust: Some(spread(rust, 0.0)),
        ours: spread(ours, 0.0),
    }
}

/// A short call of ours alone, which the Rust has no like of: a hundred of them are timed together.
pub fn alone<R>(what: impl Into<String>, times: usize, mut call: impl FnMut() -> R) -> Row {
    let mut hundred = || {
        let (time, ()) = timed(|| {
            for _ in 0..100 {
                black_box(call());
            }
        });
        time / 100
    };
    let found: Vec<Duration> = (0..times).map(|_| hundred()).collect();
    Row {
        what: what.into(),
        rust: None,
        ours: spread(found, 0.0),
    }
}

fn spread(mut times: Vec<Duration>, cost: f64) -> Spread {
    times.sort();
    let at = |percent: usize| {
        let time = times[(times.len() - 1) * percent / 100];
        (time.as_nanos() as f64 - cost).max(0.0)
    };
    Spread {
        low: at(10),
        median: at(50),
        high: at(90),
    }
}

pub const HEADING: &str = "| what | Rust, ns | ours, ns | ours/Rust |\n|---|---|---|---|";

impl fmt::Display for Spread {
    fn fmt(&self, f: &mut fmt::Formatter<'_>) -> fmt::Result {
        let [low, median, high] = [self.low, self.median, self.high].map(grouped);
        write!(f, "{median} ({low} to {high})")
    }
}

impl fmt::Display for Row {
    fn fmt(&self, f: &mut fmt::Formatter<'_>) -> fmt::Result {
        let Row { what, ours, .. } = self;
        match self.rust {
            None => write!(f, "| {what} | | {ours} | |"),
            Some(rust) => {
                let ratio = ours.median / rust.median;
                write!(f, "| {what} | {rust} | {ours} | {ratio:.2} |")
            }
        }
    }
}

/// A number with commas.
fn grouped(number: f64) -> String {
    let digits = format!("{number:.0}");
    let mut text = String::new();
    for (place, digit) in digits.chars().enumerate() {
        if place > 0 && (digits.len() - place) % 3 == 0 {
            text.push(',');
        }
        text.push(digit);
    }
    text
}
