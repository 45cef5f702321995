//! Nights that random ones seldom meet, each about one sentence of the rules; the expectation is held against what the
//! sentence says.

use crate::fate::Letter;
use crate::night::Night;
use calls::nets::{Options, PENDING, ROOM};

const HALF: u64 = 0x3fe0_0000_0000_0000;
const ONE: u64 = 0x3ff0_0000_0000_0000;
const PERFECT: Options = [0; 5];

pub fn nights() -> Vec<Night> {
    vec![
        worked_run(),
        header_over_whole_numbers(),
        one_record_for_two_calls(),
        record_from_word_1(),
        flag_of_two(),
        records_in_any_order(),
        full_again(),
        one_too_many(),
        lost_when_full(),
        no_words(),
        nothing_held(),
    ]
}

/// A night of these options and a journal of so many words, marked.
fn marked(options: Options, length: usize) -> Night {
    let mut night = Night::begin(options, length);
    night.mark();
    night
}

fn send(night: &mut Night, now: u64, draws: &[u64], extras: &[u64]) {
    let letter = Letter {
        now,
        sort: 0,
        origin: 1,
        to: 2,
        kind: 1,
        handle: now + 40,
    };
    night.send(letter, draws.to_vec(), extras.to_vec());
}

fn forge(night: &mut Night, from: usize, words: &[u64]) {
    for (at, word) in words.iter().enumerate() {
        night.forge(from + at, *word);
    }
}

/// Rewinds, which is refused by this number, or done for 0.
fn rewind(night: &mut Night, k: u64, refusal: u64) {
    night.rewind(k);
    assert_eq!(night.refusal, refusal, "a rewind of {k}");
}

/// The run with its numbers: a copy due at 17 and its original at 12.
fn worked_run() -> Night {
    let mut night = marked([HALF, HALF, 2, 10, 0], 64);
    send(&mut night, 10, &[1 << 63, 0], &[5, 0]);
    let pending = night.network[..16].to_vec();
    assert_eq!((pending[0], pending[1]), (12, 2));
    assert_eq!((pending[8], pending[9]), (17, 1));
    night.take(12, ROOM);
    assert_eq!((night.due(17), night.network[0]), (1, 17));
    night.take(16, 0);
    assert_eq!(night.journal[..2], [3, 20]);
    rewind(&mut night, 2, 0);
    assert_eq!(night.journal[..2], [1, 8]);
    assert_eq!(night.network[..16], pending);
    night
}

/// Twice the calls held are at most the words used by records, and nothing wraps.
fn header_over_whole_numbers() -> Night {
    let mut night = marked(PERFECT, 20);
    for (header, refusal) in [
        ([1 << 63, 2], 31),
        ([1, 3], 31),
        ([1, 4], 0),
        ([9, 20], 0),
        ([0, 21], 31),
        ([0, 1], 31),
        ([0, 2], 0),
    ] {
        forge(&mut night, 0, &header);
        rewind(&mut night, 0, refusal);
    }
    night
}

/// A take of one message may be counted as two calls: the header after a rewind of one is no good.
fn one_record_for_two_calls() -> Night {
    let mut night = marked(PERFECT, 40);
    send(&mut night, 5, &[], &[]);
    night.mark();
    night.take(5, ROOM);
    assert_eq!(night.journal[..2], [1, 12]);
    night.forge(0, 2);
    rewind(&mut night, 1, 0);
    assert_eq!(night.journal[..2], [1, 2]);
    rewind(&mut night, 0, 31);
    night
}

/// A record starts at word 2 or later, even one that would fit from word 1, or word 0, on.
fn record_from_word_1() -> Night {
    let mut night = marked(PERFECT, 20);
    forge(&mut night, 0, &[1, 8, 0, 0, 0, 0, 3, 7]);
    rewind(&mut night, 1, 31);
    forge(&mut night, 0, &[1, 7, 0, 0, 0, 3, 7]);
    rewind(&mut night, 1, 31);
    forge(&mut night, 0, &[1, 9, 0, 0, 0, 0, 0, 3, 7]);
    rewind(&mut night, 1, 0);
    night
}

/// A flag is 0 or 1.
fn flag_of_two() -> Night {
    let mut night = marked(PERFECT, 20);
    night.set_options([HALF, ONE, 3, 4, 1]);
    for flag in [2, u64::MAX] {
        night.forge(6, flag);
        rewind(&mut night, 1, 31);
    }
    night.forge(6, 1);
    rewind(&mut night, 1, 0);
    assert_eq!(night.options(), [0, 0, 0, 0, 1]);
    night
}

/// Records of a take are queued in their order, whatever order the journal has them in.
fn records_in_any_order() -> Night {
    let mut night = marked(PERFECT, 80);
    for now in [5, 6, 7] {
        send(&mut night, now, &[], &[]);
    }
    let queued = night.network.clone();
    night.mark();
    night.take(7, ROOM);
    let record: Vec<Vec<u64>> = night.journal[2..26]
        .chunks(8)
        .map(<[u64]>::to_vec)
        .collect();
    let reversed: Vec<u64> = record.into_iter().rev().flatten().collect();
    forge(&mut night, 2, &reversed);
    rewind(&mut night, 1, 0);
    assert_eq!(night.network[..24], queued[..24]);
    night
}

/// 64 messages that are all replayed, at these ticks in turn.
fn full(ticks: [u64; 2]) -> Night {
    let mut night = marked([0, ONE, 0, 0, 0], 2_048);
    for place in 0..64 {
        send(&mut night, ticks[place % 2], &[], &[]);
    }
    assert_eq!((night.refusal, night.network[PENDING]), (0, 128));
    night
}

/// 128 messages may end pending.
fn full_again() -> Night {
    let mut night = full([3, 9]);
    night.mark();
    night.take(3, ROOM);
    assert_eq!(night.network[PENDING], 64);
    rewind(&mut night, 1, 0);
    assert_eq!(night.network[PENDING], 128);
    night
}

/// A made-up take of one more does not fit.
fn one_too_many() -> Night {
    let mut night = full([3, 9]);
    night.take(3, ROOM);
    for now in 0..32 {
        send(&mut night, 10 + now, &[], &[]);
    }
    assert_eq!(night.network[PENDING], 128);
    night.mark();
    forge(&mut night, 0, &[1, 12, 3, 1, 3, 0, 1, 2, 1, 43, 2, 10]);
    rewind(&mut night, 1, 31);
    night
}

/// A lost message needs no place.
fn lost_when_full() -> Night {
    let mut night = full([3, 3]);
    send(&mut night, 4, &[], &[]);
    assert_eq!(night.refusal, 29);
    night.set_options([ONE, 0, 0, 0, 1]);
    send(&mut night, 4, &[], &[]);
    assert_eq!(night.refusal, 0);
    rewind(&mut night, 66, 0);
    night
}

/// A journal of no words, and of one: 32 at a mark and 31 elsewhere, but for the plain call's own refusals.
fn no_words() -> Night {
    let mut night = marked(PERFECT, 1);
    assert_eq!(night.refusal, 32);
    rewind(&mut night, 0, 31);
    night.take(0, 0);
    assert_eq!(night.refusal, 31);
    let old = night.spoil(PENDING, 129);
    rewind(&mut night, 0, 23);
    night.take(0, 0);
    assert_eq!(night.refusal, 23);
    night.mend(PENDING, old);
    night
}

/// A mark can't be rewound past, and a rewind of none looks at no record.
fn nothing_held() -> Night {
    let mut night = marked(PERFECT, 20);
    send(&mut night, 1, &[], &[]);
    night.mark();
    rewind(&mut night, 1, 33);
    night.take(0, 0);
    assert_eq!(night.journal[..4], [1, 4, 2, 2]);
    forge(&mut night, 2, &[77, 77]);
    rewind(&mut night, 0, 0);
    rewind(&mut night, 1, 31);
    night
}
