//! What the Rust does where our rules refuse: the inputs of docs/DIFFERENCES.md, each run.

use oracle::network::{Judge, Letter, NetworkOptions};
use oracle::plants::{apply, fresh, simulator, verdict};
use oracle::simulator::{parse_script, Fault, Origin};
use std::panic::{catch_unwind, AssertUnwindSafe};

/// Foreign letters stand in words that are ignored.
#[test]
fn letters_in_ignored_words() {
    assert_eq!(parse_script("5 heal 1 é"), Ok(vec![(5, Fault::Heal(1))]));
}

/// White space of Unicode parts words.
#[test]
fn foreign_white_space() {
    for space in ['\u{85}', '\u{a0}', '\u{2003}', '\u{3000}'] {
        let text = format!("5{space}crash{space}1");
        assert_eq!(parse_script(&text), Ok(vec![(5, Fault::Crash(1))]));
    }
}

/// Anywhere else they make a bad tick, an unknown fault or a bad id.
#[test]
fn letters_in_words() {
    for (text, error) in [
        ("\u{feff}5 crash 1", "bad tick"),
        ("٥ crash 1", "bad tick"),
        ("5 crésh 1", "unknown fault"),
        ("5 crash é", "bad replica id"),
    ] {
        assert!(parse_script(text).unwrap_err().contains(error), "{text}");
    }
}

/// Neither the length of a text nor the number of its events is limited.
#[test]
fn no_limits() {
    assert_eq!(parse_script(&" ".repeat(65_537)), Ok(vec![]));
    assert_eq!(
        parse_script(&"5 heal 1\n".repeat(8_000)).map(|events| events.len()),
        Ok(8_000)
    );
}

/// The line of an unknown fault and of an id is not told; that of a tick is.
#[test]
fn lines_of_errors() {
    for text in ["\n5 foo", "\n5 crash", "\n5 crash x"] {
        assert!(
            !parse_script(text).unwrap_err().contains("line 2"),
            "{text}"
        );
    }
    for text in ["\n5", "\n1,500 crash 1"] {
        assert!(parse_script(text).unwrap_err().contains("line 2"), "{text}");
    }
}

/// The options refuse fewer than 3 plants, and there is no upper bound.
#[test]
fn numbers_of_plants() {
    assert!(catch_unwind(|| simulator(2, false)).is_err());
    assert_eq!(fresh(16).up, [true; 16]);
}

/// Of a plant that there is not, crash, restart and reboot panic, reboot after its draw.
#[test]
fn faults_of_unknown_plants() {
    for (fault, drawn) in [
        (Fault::Crash(3), 0),
        (Fault::Restart(3), 0),
        (Fault::Reboot(3), 1),
    ] {
        let mut simulator = simulator(3, false);
        simulator.prng.lend(&[7]);
        let end = catch_unwind(AssertUnwindSafe(|| simulator.apply(fault)));
        assert!(end.is_err(), "{fault}");
        assert_eq!(simulator.prng.used(), drawn, "{fault}");
    }
}

/// A partition of it is kept, and a heal of it is ignored.
#[test]
fn partitions_of_unknown_plants() {
    let mut simulator = simulator(3, false);
    simulator.apply(Fault::Heal(3));
    assert!(!simulator.is_partitioned(3));
    simulator.apply(Fault::Partition(3));
    assert!(simulator.is_partitioned(3));
}

/// A receiver that there is not panics, and a sender that there is not is taken for one that is not cut off.
#[test]
fn messages_of_unknown_plants() {
    let state = fresh(3);
    assert!(catch_unwind(|| verdict(&state, Origin::Replica(0), 3)).is_err());
    assert_eq!(verdict(&state, Origin::Replica(3), 0), 0);
}

/// Counts pass 2^62.
#[test]
fn counts_without_limit() {
    let mut state = fresh(3);
    state.crashes = 1 << 62;
    let (after, _) = apply(&state, 5, Fault::Crash(0), &[]);
    assert_eq!(after.crashes, (1 << 62) + 1);
}

/// With fewer healthy plants than a quorum the choice of a core draws the size and the first shuffle, and
/// then panics. A word of 0 is the lowest pick of any range.
#[test]
fn too_few_healthy() {
    let mut simulator = simulator(3, false);
    for id in [0, 1] {
        simulator.prng.lend(&[7]);
        simulator.apply(Fault::Reboot(id));
    }
    simulator.prng.lend(&[0; 9]);
    let end = catch_unwind(AssertUnwindSafe(|| simulator.transition_to_liveness_mode()));
    assert!(end.is_err());
    assert_eq!(simulator.prng.used(), 3);
}

/// A message of kind 1 at a tick.
fn letter(now: u64) -> Letter {
    Letter {
        now,
        sort: 0,
        origin: 0,
        to: 0,
        kind: 1,
        handle: 0,
    }
}

fn fixed_delay(min: u64) -> NetworkOptions {
    NetworkOptions {
        one_way_delay_min: min,
        one_way_delay_mean: min,
        ..NetworkOptions::perfect()
    }
}

/// A take at the last tick overflows: it panics, or takes nothing where sums wrap.
#[test]
fn take_at_the_last_tick() {
    let mut judge = Judge::new(NetworkOptions::perfect());
    judge.send(letter(5), &[]);
    let taken = catch_unwind(AssertUnwindSafe(|| judge.take_due(u64::MAX).len()));
    assert_eq!(taken.is_err(), cfg!(debug_assertions));
    assert!(taken.is_err() || taken.is_ok_and(|count| count == 0));
}

/// A due tick past the last panics, or wraps to an early one.
#[test]
fn due_past_the_last_tick() {
    let mut judge = Judge::new(fixed_delay(1));
    let sent = catch_unwind(AssertUnwindSafe(|| judge.send(letter(u64::MAX), &[])));
    assert_eq!(sent.is_err(), cfg!(debug_assertions));
    if sent.is_ok() {
        assert_eq!(judge.records()[0][0], 0);
    }
}

/// Neither the messages in flight nor those sent are limited.
#[test]
fn no_limits_of_a_network() {
    let mut judge = Judge::new(NetworkOptions::perfect());
    for _ in 0..129 {
        judge.send(letter(0), &[]);
    }
    assert_eq!(judge.pending(), 129);
    judge.set_sent_and_lost(1 << 62, 0);
    judge.send(letter(0), &[]);
    assert_eq!(judge.counters()[0], (1 << 62) + 1);
}

/// set_options tests nothing: NaN and numbers under 0 act as 0, those over 1 panic when they are drawn on,
/// and a minimum over the mean is a fixed delay.
#[test]
fn options_not_tested() {
    let losing = |loss| NetworkOptions {
        packet_loss_probability: loss,
        ..NetworkOptions::perfect()
    };
    for loss in [f64::NAN, -1.0] {
        let mut judge = Judge::new(losing(loss));
        assert_eq!(judge.send(letter(0), &[]), 0);
        assert_eq!(judge.counters()[2], 0);
    }
    let mut judge = Judge::new(losing(2.0));
    let sent = catch_unwind(AssertUnwindSafe(|| judge.send(letter(0), &[0])));
    assert!(sent.is_err());
    let mut judge = Judge::new(NetworkOptions::perfect());
    judge.set_options(NetworkOptions {
        one_way_delay_mean: 1,
        ..fixed_delay(2)
    });
    judge.send(letter(0), &[]);
    assert_eq!(judge.records()[0][0], 2);
}
