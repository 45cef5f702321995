//! Random nights. Most calls are within the rules; some break one of them. Rewinds go back over everything since the
//! last mark; some nights end with words put into the journal or the network (forged.rs).

use crate::fate::{fate, uses_a_draw, Letter};
use crate::forged;
use crate::night::Night;
use calls::draws::Draws;
use calls::nets::{
    any_number, draw, first_tick, ill_formed, next_tick, options_bad_once_in, room, ROOM,
};

/// A night of about so many calls at most.
pub fn night(most: usize, draws: &mut Draws) -> Night {
    let mut night = Night::begin(options_bad_once_in(8, draws), length(draws));
    let mut clock = first_tick(draws);
    // How seldom what is due is taken, and how seldom the night is rewound: where both are seldom, the queue fills.
    let patience = [3, 6, 12, 200][draws.below(4)];
    let calm = [3, 5, 12, 100][draws.below(4)];
    // Before its first mark a journal is no good.
    for _ in 0..draws.below(4) {
        step(&mut night, clock, patience, calm, draws);
    }
    night.mark();
    let calls = draws.between(20, most);
    while night.steps() < calls {
        clock = next_tick(clock, draws);
        step(&mut night, clock, patience, calm, draws);
    }
    if !draws.once_in(3) {
        forged::end(&mut night, clock, draws);
    }
    night
}

/// How many words a journal has: too few, few, some or many.
fn length(draws: &mut Draws) -> usize {
    match draws.below(12) {
        0 => draws.below(4),
        1..=3 => draws.between(4, 80),
        4..=6 => draws.between(80, 700),
        7 | 8 => draws.between(700, 2_047),
        _ => 2_048,
    }
}

fn step(night: &mut Night, clock: u64, patience: usize, calm: usize, draws: &mut Draws) {
    if night.refusal == 32 && draws.once_in(4) {
        return night.mark();
    }
    match draws.below(60) {
        0 => spoilt(night, clock, draws),
        1 => night.set_options(options_bad_once_in(3, draws)),
        2 if draws.once_in(2) => night.mark(),
        _ if draws.once_in(patience) => take(night, clock, draws),
        _ if draws.once_in(calm) => rewind(night, draws),
        _ => send(night, clock, draws),
    }
}

/// Back over none, one, some or all of the calls held, or too many.
pub fn rewind(night: &mut Night, draws: &mut Draws) {
    let held = night.held();
    let k = match draws.below(16) {
        0 => 0,
        1 => held,
        2 => held.saturating_add(1),
        3 => any_number(draws),
        4 | 5 => draws.below(held.min(2_048) as usize + 1) as u64,
        6..=11 => 1,
        _ => held.min(draws.between(2, 6) as u64),
    };
    night.rewind(k);
}

fn letter(clock: u64, draws: &mut Draws) -> Letter {
    Letter {
        now: if draws.once_in(20) {
            any_number(draws)
        } else {
            clock
        },
        sort: if draws.once_in(100) {
            any_number(draws).max(2)
        } else {
            draws.below(2) as u64
        },
        origin: any_number(draws),
        to: any_number(draws),
        kind: if draws.once_in(100) {
            any_number(draws).max(11)
        } else {
            draws.below(11) as u64
        },
        handle: draws.word() >> draws.below(64),
    }
}

/// An extra: none, few ticks, any, or those beside the last tick.
fn extra(now: u64, min: u64, draws: &mut Draws) -> u64 {
    let last = u64::MAX.saturating_sub(now).saturating_sub(min);
    match draws.below(16) {
        0..=5 => 0,
        6 => last,
        7 => last.saturating_add(1),
        8 => any_number(draws),
        _ => draws.below(60) as u64,
    }
}

/// Of four words as many as are used, more of them, or too few.
fn lent(list: [u64; 4], used: usize, draws: &mut Draws) -> Vec<u64> {
    let count = if draws.once_in(40) {
        used.saturating_sub(draws.between(1, 2))
    } else {
        used + draws.below(3)
    };
    list[..count.min(4)].to_vec()
}

pub fn send(night: &mut Night, clock: u64, draws: &mut Draws) {
    let letter = letter(clock, draws);
    let options = night.options();
    let mut words = [draws.word(), draws.word(), any_number(draws), draws.word()];
    let drawn = options[..2].iter().filter(|bits| uses_a_draw(**bits));
    for (word, bits) in words.iter_mut().zip(drawn) {
        *word = draw(f64::from_bits(*bits), draws);
    }
    let extras = [0; 4].map(|_: u64| extra(letter.now, options[2], draws));
    let used =
        fate(options, &letter, &words, &extras).map_or((2, 2), |fate| (fate.draws, fate.extras));
    let words = lent(words, used.0, draws);
    let extras = lent(extras, used.1, draws);
    night.send(letter, words, extras);
}

pub fn take(night: &mut Night, clock: u64, draws: &mut Draws) {
    let now = match draws.below(20) {
        0 => any_number(draws),
        1 => u64::MAX,
        2..=5 => clock.saturating_add(draws.below(100) as u64),
        6 => clock.saturating_sub(draws.below(50) as u64),
        _ => clock,
    };
    let room = room(night.due(now), draws);
    night.take(now, room);
}

/// Makes the network ill formed by one word, calls it, and mends it.
fn spoilt(night: &mut Night, clock: u64, draws: &mut Draws) {
    let Some((place, value)) = ill_formed(&night.network, draws) else {
        return;
    };
    let old = night.spoil(place, value);
    for _ in 0..draws.between(1, 3) {
        match draws.below(4) {
            0 => night.set_options(options_bad_once_in(3, draws)),
            1 => night.take(clock, ROOM),
            2 => rewind(night, draws),
            _ => send(night, clock, draws),
        }
    }
    night.mend(place, old);
}
