//! Random states and calls. Most are within the rules; about one in twelve breaks one of them.

use crate::case::{Call, Case, Words, MOST};
use crate::expected::{self, LENT_WORDS, LIMIT};
use calls::draws::Draws;
use calls::raw::{record, RECORD_WORDS};

/// A state of 3 to 15 plants. Once in twenty a count stands at its limit.
fn state(draws: &mut Draws) -> Words {
    let n = draws.between(3, MOST);
    let mask = (1u64 << n) - 1;
    let up = flags(draws) & mask;
    let partitioned = flags(draws) & mask;
    let mut counts = [0; 3];
    for count in &mut counts {
        *count = match draws.below(20) {
            0 => LIMIT - draws.below(2) as u64,
            1..=3 => 0,
            _ => draws.below(1_000) as u64,
        };
    }
    let mut stable_until = [0; MOST];
    for tick in &mut stable_until {
        *tick = any_number(draws);
    }
    Words {
        n: n as u64,
        up,
        partitioned,
        counts,
        stable_until,
    }
}

/// Bits, of which few, half, most, all or none are set.
fn flags(draws: &mut Draws) -> u64 {
    let (one, other) = (draws.word(), draws.word());
    match draws.below(8) {
        0 => 0,
        1 => u64::MAX,
        2 | 3 => one & other,
        4 | 5 => one | other,
        _ => one,
    }
}

fn any_number(draws: &mut Draws) -> u64 {
    match draws.below(4) {
        0 => draws.below(3) as u64,
        1 => u64::MAX - draws.below(3) as u64,
        2 => draws.word(),
        _ => draws.below(100_000) as u64,
    }
}

/// A number that is not below n.
fn not_below(draws: &mut Draws, n: u64) -> u64 {
    match draws.below(3) {
        0 => n,
        1 => n.saturating_add(1 + draws.below(20) as u64),
        _ => (any_number(draws)).max(n),
    }
}

/// A state that breaks a rule: n out of bounds, a flag past n, or a count over its limit.
fn bad_state(draws: &mut Draws) -> Words {
    let mut state = state(draws);
    match draws.below(4) {
        0 => state.n = bad_n(draws),
        1 if state.n < 15 => state.up |= 1 << draws.between(state.n as usize, 14),
        2 if state.n < 15 => state.partitioned |= 1 << draws.between(state.n as usize, 14),
        _ => state.counts[draws.below(3)] = LIMIT + 1 + (any_number(draws) >> 2),
    }
    state
}

fn bad_n(draws: &mut Draws) -> u64 {
    match draws.below(4) {
        0 | 1 => draws.below(3) as u64,
        2 => 16 + draws.below(4) as u64,
        _ => any_number(draws).max(16),
    }
}

fn any_state(draws: &mut Draws) -> Words {
    if draws.once_in(25) {
        bad_state(draws)
    } else {
        state(draws)
    }
}

fn id(draws: &mut Draws, n: u64) -> u64 {
    if draws.once_in(25) || n == 0 {
        not_below(draws, n)
    } else {
        draws.below(n.min(20) as usize) as u64
    }
}

pub fn new(draws: &mut Draws) -> Case {
    let n = if draws.once_in(4) {
        bad_n(draws)
    } else {
        draws.between(3, MOST) as u64
    };
    expected::new(n)
}

pub fn apply(draws: &mut Draws) -> Case {
    let before = any_state(draws);
    let id = id(draws, before.n);
    let fault = draws.below(6) as u64;
    let tick = any_number(draws);
    let count = if draws.once_in(12) {
        0
    } else {
        draws.between(1, 2)
    };
    let lent = (0..count).map(|_| any_number(draws)).collect();
    expected::apply(before, fault, id, tick, lent)
}

pub fn verdict(draws: &mut Draws) -> Case {
    let before = any_state(draws);
    let to = id(draws, before.n);
    let client = draws.once_in(2);
    // A client's id is not tested.
    let from = if client {
        any_number(draws)
    } else {
        id(draws, before.n)
    };
    expected::verdict(before, client, from, to)
}

/// The verdicts on up to so many records; the words that a verdict does not look at are any.
const MOST_RECORDS: usize = 12;

pub fn verdicts(draws: &mut Draws) -> Case {
    let before = any_state(draws);
    let count = match draws.below(6) {
        0 => 0,
        1 => 1,
        _ => draws.between(2, MOST_RECORDS),
    };
    let mut records: Vec<u64> = (0..count)
        .flat_map(|_| any_record(before.n, draws))
        .collect();
    let mut room = count;
    if draws.once_in(20) {
        match draws.below(3) {
            0 => room += 1,
            1 => records.push(any_number(draws)),
            _ => room = room.saturating_sub(1),
        }
    }
    let odd = draws
        .once_in(25)
        .then(|| (draws.between(1, 30), not_below(draws, 2)));
    expected::verdicts(before, records, room, odd)
}

/// A record with an id or a sort that is none, once in sixty each.
fn any_record(n: u64, draws: &mut Draws) -> [u64; RECORD_WORDS] {
    let mut words = [0; RECORD_WORDS];
    words.fill_with(|| any_number(draws));
    let named = |draws: &mut Draws| match draws.once_in(60) || n == 0 {
        true => not_below(draws, n),
        false => draws.below(n.min(20) as usize) as u64,
    };
    words[record::TO] = named(draws);
    words[record::SORT] = draws.below(2) as u64;
    // A client's id is not tested.
    if words[record::SORT] == 0 {
        words[record::ORIGIN] = named(draws);
    }
    if draws.once_in(60) {
        words[record::SORT] = not_below(draws, 2);
    }
    words
}

pub fn core(draws: &mut Draws) -> Case {
    if draws.once_in(12) {
        return refused_core(draws);
    }
    answered_core(state(draws), draws)
}

/// A choice that the Rust answers: at least a quorum is healthy.
fn answered_core(before: Words, draws: &mut Draws) -> Case {
    let recovering = recovering(before.n as usize, draws);
    let raw: Vec<u64> = (0..LENT_WORDS).map(|_| draws.word()).collect();
    let full = draws.once_in(4);
    let count = if draws.once_in(3) { draws.below(4) } else { 0 };
    let surplus: Vec<u64> = (0..count).map(|_| any_number(draws)).collect();
    expected::core(before, &recovering, &raw, &surplus, full)
}

/// Flags of at most as many plants as leave a quorum healthy.
fn recovering(n: usize, draws: &mut Draws) -> Vec<bool> {
    let mut flags = vec![false; n];
    let most = n - (n / 2 + 1);
    for _ in 0..draws.between(0, most) {
        flags[draws.below(n)] = true;
    }
    flags
}

/// A choice within the rules, and then one thing in it broken; or two, of which the earlier in the rules'
/// order (40, 42, 45, 48, 46, 47) counts.
pub fn refused_core(draws: &mut Draws) -> Case {
    let mut before = state(draws);
    before.counts = [0; 3];
    let good = answered_core(before.clone(), draws);
    let Call::Core {
        full,
        mut flags,
        mut picks,
    } = good.call
    else {
        unreachable!("a choice of a core was asked for");
    };
    let sort = draws.below(5);
    let later = draws.once_in(3).then(|| draws.below(5));
    let breaks =
        |this: usize| sort == this || later.is_some_and(|later| later > sort && later == this);
    let n = before.n as usize;
    let number = [0, 45, 48, 46, 47][sort];
    // 47: the Rust's picks are in range, as it makes them itself.
    if breaks(4) {
        break_a_pick(n, full, &mut picks, draws);
    }
    // 46: the Rust's generator never ends.
    if breaks(3) {
        let used = used(n, full);
        picks.truncate(if draws.once_in(2) {
            used - 1
        } else {
            draws.below(used)
        });
    }
    // 48: the Rust asserts.
    if breaks(2) {
        too_few_healthy(n, &mut flags, draws);
    }
    // 45: the Rust's flags are the replicas' own.
    if breaks(1) {
        break_the_flags(&mut flags, draws);
    }
    // 40 and 42: the Rust has no such states.
    let call = Call::Core { full, flags, picks };
    if breaks(0) {
        let bad = bad_state(draws);
        let number = if (3..=15).contains(&bad.n) { 42 } else { 40 };
        return expected::refused(bad, call, number);
    }
    expected::refused(before, call, number)
}

fn used(n: usize, full: u64) -> usize {
    usize::from(full == 0) + (n - 1) + (n - (n / 2 + 1) - 1)
}

/// A pick over its range, or a size under it.
fn break_a_pick(n: usize, full: u64, picks: &mut [u64], draws: &mut Draws) {
    let quorum = n / 2 + 1;
    let place = draws.below(used(n, full));
    let first = usize::from(full == 0);
    let last = if place < first {
        n
    } else if place < first + n - 1 {
        n - 1 - (place - first)
    } else {
        n - quorum - 1 - (place - first - (n - 1))
    };
    picks[place] = if place < first && draws.once_in(2) {
        draws.below(quorum) as u64
    } else {
        not_below(draws, last as u64 + 1)
    };
}

fn too_few_healthy(n: usize, flags: &mut [u64], draws: &mut Draws) {
    let quorum = n / 2 + 1;
    let wanted = draws.below(quorum);
    while flags.iter().filter(|&&flag| flag == 0).count() > wanted {
        let id = draws.below(flags.len());
        flags[id] = 1;
    }
}

/// A flag over 1, or one flag too many or too few.
fn break_the_flags(flags: &mut Vec<u64>, draws: &mut Draws) {
    match draws.below(3) {
        0 => flags.push(draws.below(2) as u64),
        1 => flags.truncate(draws.below(flags.len())),
        _ => {
            let id = draws.below(flags.len());
            flags[id] = any_number(draws).max(2);
        }
    }
}

/// What only the boundary has, and the Rust has not.
pub const BOUNDARY: [&str; 4] = [
    "a fault over 5",
    "a sender's sort over 1",
    "a flag over 1",
    "a core with a wish that is any number",
];

/// A case of one of these: refused by 5, by 24, by 42 but after 40, and as the wish for the full core by 1.
pub fn boundary(draws: &mut Draws) -> (&'static str, Case) {
    let which = draws.below(BOUNDARY.len());
    let case = match which {
        0 => fault_over_5(draws),
        1 => sort_over_1(draws),
        2 => flag_over_1(draws),
        _ => full_by_another_number(draws),
    };
    (BOUNDARY[which], case)
}

fn fault_over_5(draws: &mut Draws) -> Case {
    let mut case = apply(draws);
    if let Call::Apply { fault, .. } = &mut case.call {
        *fault = not_below(draws, 6);
    }
    expected::refused(case.before, case.call, 5)
}

fn sort_over_1(draws: &mut Draws) -> Case {
    let mut case = verdict(draws);
    if let Call::Verdict { sort, .. } = &mut case.call {
        *sort = not_below(draws, 2);
    }
    expected::refused(case.before, case.call, 24)
}

fn flag_over_1(draws: &mut Draws) -> Case {
    let makers = [apply, verdict, core];
    let case = makers[draws.below(3)](draws);
    let is_known = (3..=15).contains(&case.before.n);
    let number = if is_known { 42 } else { 40 };
    let flag = (draws.between(1, 30), not_below(draws, 2));
    Case {
        odd: Some(flag),
        ..expected::refused(case.before, case.call, number)
    }
}

fn full_by_another_number(draws: &mut Draws) -> Case {
    let mut case = core(draws);
    if let Call::Core { full, .. } = &mut case.call {
        if *full == 1 {
            *full = not_below(draws, 2);
        }
    }
    case
}
