//! Random runs. Most calls are within the rules; some break one of them.

use crate::fates;
use crate::run::{Run, Sending, SENT_LIMIT};
use calls::case::Case;
use calls::draws::Draws;
use calls::nets::{
    any_number, bad_probability, draw, first_tick, ill_formed, next_tick, options,
    options_bad_once_in, room, Options, FLAG, LOSS, ROOM, SENT,
};
use oracle::network::Letter;

/// A run of calls.
pub fn run(draws: &mut Draws) -> Run {
    let mut run = Run::new(options_bad_once_in(8, draws));
    let mut clock = first_tick(draws);
    // How seldom what is due is taken: where it is seldom, the queue fills.
    let patience = [3, 6, 12, 200][draws.below(4)];
    for _ in 0..draws.between(60, 400) {
        clock = next_tick(clock, draws);
        match draws.below(60) {
            0 => spoilt(&mut run, clock, draws),
            1 if draws.once_in(2) => at_the_limit(&mut run, clock, draws),
            2 => set_options(&mut run, draws),
            _ if draws.once_in(patience) => take(&mut run, clock, draws),
            3 | 4 => run.pending(),
            5 | 6 => in_flight(&mut run, draws),
            _ => send(&mut run, clock, draws),
        }
    }
    run
}

fn set_options(run: &mut Run, draws: &mut Draws) {
    run.set_options(options_bad_once_in(3, draws));
}

fn send(run: &mut Run, clock: u64, draws: &mut Draws) {
    let (words, letter) = message(run.options_now(), clock, draws);
    let surplus: Vec<u64> = (0..draws.below(3)).map(|_| any_number(draws)).collect();
    let cut = [cut(draws), cut(draws)];
    let sending = Sending { letter, words, cut };
    run.send(&sending, &surplus);
}

/// How many words are lacking: seldom some.
fn cut(draws: &mut Draws) -> usize {
    if draws.once_in(40) {
        draws.between(1, 2)
    } else {
        0
    }
}

fn message(options: Options, clock: u64, draws: &mut Draws) -> ([u64; 4], Letter) {
    let letter = Letter {
        now: if draws.once_in(20) {
            any_number(draws)
        } else {
            clock
        },
        sort: if draws.once_in(100) {
            any_number(draws).max(2)
        } else {
            draws.below(2) as u64
        },
        origin: any_number(draws),
        to: any_number(draws),
        kind: if draws.once_in(100) {
            any_number(draws).max(11)
        } else {
            draws.below(11) as u64
        },
        handle: draws.word() >> draws.below(64),
    };
    let words = [
        draw(f64::from_bits(options[0]), draws),
        draw(f64::from_bits(options[1]), draws),
        draw(0.0, draws),
        draws.word(),
    ];
    (words, letter)
}

fn take(run: &mut Run, clock: u64, draws: &mut Draws) {
    let now = match draws.below(20) {
        0 => any_number(draws),
        1 => u64::MAX,
        2..=5 => clock.saturating_add(draws.below(100) as u64),
        _ => clock,
    };
    let room = room(run.due(now), draws);
    run.take(now, room);
}

fn in_flight(run: &mut Run, draws: &mut Draws) {
    let room = room(run.pending_now(), draws);
    run.in_flight(room);
}

/// Makes our network ill formed by one word, calls it, and mends it.
fn spoilt(run: &mut Run, clock: u64, draws: &mut Draws) {
    let Some((place, value)) = ill_formed(&run.network, draws) else {
        return;
    };
    let old = run.spoil(place, value);
    for _ in 0..draws.between(1, 3) {
        match draws.below(5) {
            0 => set_options(run, draws),
            1 => run.take(clock, ROOM),
            2 => run.pending(),
            3 => run.in_flight(ROOM),
            _ => send(run, clock, draws),
        }
    }
    run.mend(place, old);
}

/// Some sends where the limit of messages sent is near, and the count as it would have been.
fn at_the_limit(run: &mut Run, clock: u64, draws: &mut Draws) {
    let old = run.network[SENT];
    let near = SENT_LIMIT - draws.below(3) as u64;
    run.set_sent(near);
    for _ in 0..draws.between(1, 5) {
        send(run, clock, draws);
    }
    let more = run.network[SENT] - near;
    run.set_sent(old + more);
}

/// A run of ticks, each in one call: of no message to a dozen, some of them refused. Beside them are words and numbers that only the
/// boundary has: a flag of options that is any number, and a head with a flag over 1 or with bits of no probability.
pub fn ticks(draws: &mut Draws) -> Run {
    let mut run = Run::new(with_any_flag(options(draws), draws));
    let mut clock = first_tick(draws);
    for _ in 0..draws.between(20, 60) {
        clock = next_tick(clock, draws);
        match draws.below(40) {
            0 => run.set_options(with_any_flag(options_bad_once_in(3, draws), draws)),
            1 => {
                if let Some((place, value)) = ill_formed(&run.network, draws) {
                    let old = run.spoil(place, value);
                    tick(&mut run, clock, draws);
                    run.mend(place, old);
                }
            }
            2 => near_the_limit(&mut run, clock, draws),
            3 => no_head(&mut run, clock, draws),
            _ => tick(&mut run, clock, draws),
        }
    }
    run
}

fn with_any_flag(options: Options, draws: &mut Draws) -> Options {
    let [loss, replay, min, mean, flag] = options;
    let flag = if flag == 1 {
        any_number(draws).max(1)
    } else {
        0
    };
    [loss, replay, min, mean, flag]
}

/// Calls on a head that no network has.
fn no_head(run: &mut Run, clock: u64, draws: &mut Draws) {
    let (place, value) = match draws.below(3) {
        0 => (FLAG, any_number(draws).max(2)),
        1 => (LOSS, bad_probability(draws)),
        _ => (LOSS + 1, bad_probability(draws)),
    };
    let old = run.spoil(place, value);
    for _ in 0..draws.between(1, 3) {
        match draws.below(6) {
            0 => set_options(run, draws),
            1 => run.take(clock, ROOM),
            2 => run.pending(),
            3 => run.in_flight(ROOM),
            4 => tick(run, clock, draws),
            _ => send(run, clock, draws),
        }
    }
    run.mend(place, old);
}

fn tick(run: &mut Run, clock: u64, draws: &mut Draws) {
    // How many of the messages come with odd numbers or too few words: none, one in many, or any.
    let oddity = [0, 0, 1, 2][draws.below(4)];
    let count = draws.below(13);
    let mut sendings = Vec::new();
    for _ in 0..count {
        let (words, letter) = message(run.options_now(), clock, draws);
        let mut sending = Sending {
            letter,
            words,
            cut: [0, 0],
        };
        if oddity == 0 {
            plain(&mut sending.letter, clock);
        }
        if oddity == 2 {
            sending.cut = [cut(draws), cut(draws)];
        }
        sendings.push(sending);
    }
    let now = match draws.below(8) {
        0 => u64::MAX,
        1 => clock.saturating_add(draws.below(100) as u64),
        _ => clock,
    };
    let surplus: Vec<u64> = (0..draws.below(3)).map(|_| any_number(draws)).collect();
    let over = if draws.once_in(30) {
        draws.between(1, 5)
    } else {
        0
    };
    let room = if draws.once_in(6) {
        draws.below(ROOM + 1)
    } else {
        ROOM
    };
    run.tick(&sendings, over, &surplus, now, room);
}

/// A message that no rule refuses for itself.
fn plain(letter: &mut Letter, clock: u64) {
    letter.now = clock;
    letter.sort %= 2;
    letter.kind %= 11;
}

/// A tick in which the limit of messages sent is reached.
fn near_the_limit(run: &mut Run, clock: u64, draws: &mut Draws) {
    let old = run.network[SENT];
    let near = SENT_LIMIT - draws.below(6) as u64;
    run.set_sent(near);
    tick(run, clock, draws);
    let more = run.network[SENT] - near;
    run.set_sent(old + more);
}

/// A message's fate alone, under any options.
pub fn fate(draws: &mut Draws) -> Case {
    let options = with_any_flag(options_bad_once_in(8, draws), draws);
    let clock = first_tick(draws);
    let (words, mut letter) = message(options, clock, draws);
    // A fate has no sender.
    letter.sort = 0;
    let surplus: Vec<u64> = (0..draws.below(3)).map(|_| any_number(draws)).collect();
    let cut = [cut(draws), cut(draws)];
    let sending = Sending { letter, words, cut };
    fates::case(options, &sending, &surplus)
}
