//! The expected answer to a call and the state after it. The Rust is asked wherever it has an answer; the
//! refusals are our rules alone (docs/RULES.md, "Refusal numbers") and are tested here in the rules' order.
//! What the Rust does instead stands at each.

use crate::case::{Answer, Call, Case, Words, MOST};
use calls::raw::{record, RECORD_WORDS};
use oracle::plants::{self, State};
use oracle::simulator::{Fault, Origin};

/// The most that a count may be.
pub const LIMIT: u64 = 1 << 62;

/// Words lent to the Rust's choice of a core: so many that it is never short of them.
pub const LENT_WORDS: usize = 400;

pub fn new(n: u64) -> Case {
    let before = Words { n, ..Words::zero() };
    let (answer, after) = if (3..=15).contains(&n) {
        (Answer::Done, words(&plants::fresh(n as usize)))
    } else {
        // 40: the Rust refuses fewer than 3 by its options, and has no upper bound.
        (Answer::Refused(40), Words::zero())
    };
    Case {
        before,
        call: Call::New,
        answer,
        after,
        odd: None,
    }
}

pub fn apply(before: Words, fault: u64, id: u64, tick: u64, draws: Vec<u64>) -> Case {
    let (answer, after) = applied(&before, fault, id, tick, &draws);
    Case {
        before,
        call: Call::Apply {
            fault,
            id,
            tick,
            draws,
        },
        answer,
        after,
        odd: None,
    }
}

fn applied(before: &Words, fault: u64, id: u64, tick: u64, draws: &[u64]) -> (Answer, Words) {
    if let Some(number) = ill_formed(before) {
        return (Answer::Refused(number), before.clone());
    }
    // 41: the Rust panics at crash, restart and reboot, keeps a partition and ignores a heal.
    if fault != 5 && id >= before.n {
        return (Answer::Refused(41), before.clone());
    }
    let lent = if draws.is_empty() { &[0] } else { draws };
    let (after, nonce) = plants::apply(&state(before), tick, fault_of(fault, id as usize), lent);
    // 43: the Rust counts on, as far as a usize goes.
    if passes_limit(&after) {
        return (Answer::Refused(43), before.clone());
    }
    // 44: the Rust's generator never ends.
    if nonce.is_some() && draws.is_empty() {
        return (Answer::Refused(44), before.clone());
    }
    let mut after = words(&after);
    keep_past_n(before, &mut after);
    (nonce.map_or(Answer::Done, Answer::Nonce), after)
}

pub fn verdict(before: Words, client: bool, id: u64, to: u64) -> Case {
    let answer = judged(&before, client, id, to);
    Case {
        after: before.clone(),
        before,
        call: Call::Verdict {
            sort: u64::from(client),
            id,
            to,
        },
        answer,
        odd: None,
    }
}

fn judged(before: &Words, client: bool, id: u64, to: u64) -> Answer {
    if let Some(number) = ill_formed(before) {
        return Answer::Refused(number);
    }
    // 41: the Rust panics at the receiver, and takes a sender that it does not know for one not cut off.
    if to >= before.n || (!client && id >= before.n) {
        return Answer::Refused(41);
    }
    let from = if client {
        Origin::Client(id as usize)
    } else {
        Origin::Replica(id as usize)
    };
    Answer::Verdict(plants::verdict(&state(before), from, to as usize))
}

/// The verdicts on records, each as the Rust has it for the single message; `odd` is a word of the state that stands otherwise.
pub fn verdicts(before: Words, records: Vec<u64>, room: usize, odd: Option<(usize, u64)>) -> Case {
    let answer = all_judged(&before, &records, room, odd.is_some());
    Case {
        after: before.clone(),
        before,
        call: Call::Verdicts { records, room },
        answer,
        odd,
    }
}

fn all_judged(before: &Words, records: &[u64], room: usize, odd: bool) -> Answer {
    // 30: the Rust takes messages into a list that grows.
    if records.len() != room * RECORD_WORDS {
        return Answer::Refused(30);
    }
    let state = ill_formed(before).or(odd.then_some(42));
    let mut told = Vec::new();
    for words in records.chunks_exact(RECORD_WORDS) {
        // 24: the Rust has no other origins.
        if words[record::SORT] > 1 {
            return Answer::Refused(24);
        }
        if let Some(number) = state {
            return Answer::Refused(number);
        }
        let is_client = words[record::SORT] == 1;
        match judged(before, is_client, words[record::ORIGIN], words[record::TO]) {
            Answer::Verdict(number) => told.push(number),
            refused => return refused,
        }
    }
    match state {
        Some(number) => Answer::Refused(number),
        None => Answer::Verdicts(told),
    }
}

/// A choice that the Rust has an answer to, but where a count passes its limit. The picks are those that it
/// read off the raw words, and then `surplus`, which no one may use.
pub fn core(before: Words, recovering: &[bool], raw: &[u64], surplus: &[u64], full: bool) -> Case {
    assert_eq!(ill_formed(&before), None);
    let n = before.n as usize;
    let chosen = plants::core(&state(&before), recovering, raw, full);
    let mut picks = picks_read(n, &raw[..chosen.words_used], full);
    let used = picks.len() as u64;
    picks.extend(surplus);
    let flags = recovering.iter().map(|&is| u64::from(is)).collect();
    let call = Call::Core {
        full: u64::from(full),
        flags,
        picks,
    };
    // 43: as at a fault.
    if passes_limit(&chosen.state) {
        return refused(before, call, 43);
    }
    let mut after = words(&chosen.state);
    keep_past_n(&before, &mut after);
    let ids = chosen.ids.iter().map(|&id| id as u64).collect();
    Case {
        before,
        call,
        answer: Answer::Core { ids, used },
        after,
        odd: None,
    }
}

/// A call that the rules refuse by this number, which leaves the state.
pub fn refused(before: Words, call: Call, number: u64) -> Case {
    Case {
        after: before.clone(),
        before,
        call,
        answer: Answer::Refused(number),
        odd: None,
    }
}

/// The picks that rand 0.8.5 reads off words for the ranges of a core, in order. A word times the range's
/// size: the high half is the pick, counted from the range's lowest, if the low half is at most the zone.
/// They must use the words up.
fn picks_read(n: usize, words: &[u64], full: bool) -> Vec<u64> {
    let quorum = n / 2 + 1;
    let mut ranges = Vec::new();
    if !full {
        ranges.push((quorum, n));
    }
    ranges.extend((1..n).rev().map(|last| (0, last)));
    ranges.extend((1..n - quorum).rev().map(|last| (0, last)));
    let mut words = words.iter();
    let picks = ranges
        .into_iter()
        .map(|(low, high)| pick_read(low as u64, high as u64, &mut words))
        .collect();
    assert_eq!(
        words.next(),
        None,
        "the Rust drew more words than its picks take"
    );
    picks
}

fn pick_read<'a>(low: u64, high: u64, words: &mut impl Iterator<Item = &'a u64>) -> u64 {
    let size = high - low + 1;
    let zone = (size << size.leading_zeros()) - 1;
    loop {
        let word = words
            .next()
            .expect("the Rust drew fewer words than its picks take");
        let product = u128::from(*word) * u128::from(size);
        if product as u64 <= zone {
            return low + (product >> 64) as u64;
        }
    }
}

/// 40 and 42, which each call tests first: the Rust has no such states.
fn ill_formed(before: &Words) -> Option<u64> {
    if !(3..=15).contains(&before.n) {
        return Some(40);
    }
    let past = !((1 << before.n) - 1);
    if before.up & past != 0 || before.partitioned & past != 0 {
        return Some(42);
    }
    if before.counts.iter().any(|&count| count > LIMIT) {
        return Some(42);
    }
    None
}

fn passes_limit(state: &State) -> bool {
    [state.crashes, state.restarts, state.reboots]
        .iter()
        .any(|&count| count > LIMIT)
}

fn fault_of(number: u64, id: usize) -> Fault {
    match number {
        0 => Fault::Crash(id),
        1 => Fault::Restart(id),
        2 => Fault::Reboot(id),
        3 => Fault::Partition(id),
        4 => Fault::Heal(id),
        _ => Fault::HealAll,
    }
}

fn state(words: &Words) -> State {
    let n = words.n as usize;
    let flags = |bits: u64| (0..n).map(|id| bits >> id & 1 == 1).collect();
    State {
        up: flags(words.up),
        partitioned: flags(words.partitioned),
        stable_until: words.stable_until[..n].to_vec(),
        crashes: words.counts[0],
        restarts: words.counts[1],
        reboots: words.counts[2],
    }
}

fn words(state: &State) -> Words {
    let bits = |flags: &[bool]| {
        let places = flags.iter().enumerate();
        places.map(|(id, &is)| u64::from(is) << id).sum()
    };
    let mut stable_until = [0; MOST];
    stable_until[..state.up.len()].copy_from_slice(&state.stable_until);
    Words {
        n: state.up.len() as u64,
        up: bits(&state.up),
        partitioned: bits(&state.partitioned),
        counts: [state.crashes, state.restarts, state.reboots],
        stable_until,
    }
}

/// The Rust has no ticks past the last plant; ours stay as they came.
fn keep_past_n(before: &Words, after: &mut Words) {
    let n = before.n as usize;
    after.stable_until[n..].copy_from_slice(&before.stable_until[n..]);
}
