//! The end of a night whose words are forged: words of the journal that no call wrote, of which many fit, or a network
//! that stays well formed but is not what its journal is about.

use crate::inputs::{rewind, send, take};
use crate::night::Night;
use crate::plain::{Network, SENT_LIMIT};
use crate::words;
use calls::draws::Draws;
use calls::nets::{
    any_number, bad_probability, options, options_bad_once_in, DELAYED, LOST, PENDING, SENT,
};

/// Some words put, and calls after them. Where the journal is no good any more, a mark often mends it.
pub fn end(night: &mut Night, clock: u64, draws: &mut Draws) {
    for _ in 0..draws.between(2, 12) {
        if night.refusal == 31 && draws.once_in(2) {
            night.mark();
        }
        put(night, clock, draws);
        for _ in 0..draws.between(1, 3) {
            call(night, clock, draws);
        }
    }
}

fn call(night: &mut Night, clock: u64, draws: &mut Draws) {
    match draws.below(12) {
        0 | 1 => send(night, clock, draws),
        2 => take(night, clock, draws),
        3 => night.set_options(options_bad_once_in(3, draws)),
        4 if draws.once_in(4) => night.mark(),
        _ => rewind(night, draws),
    }
}

fn put(night: &mut Night, clock: u64, draws: &mut Draws) {
    match draws.below(16) {
        0 => any_word(night, draws),
        1 => calls_held(night, draws),
        2 => words_used(night, draws),
        3 => network_word(night, draws),
        4 => at_the_limit(night, clock, draws),
        5..=7 => made_up_take(night, draws),
        8 | 9 => made_up_send(night, draws),
        10 | 11 => made_up_options(night, draws),
        _ => record(night, draws),
    }
}

/// A number near another, or any.
fn other(number: u64, draws: &mut Draws) -> u64 {
    match draws.below(5) {
        0 => number.wrapping_add(1),
        1 => number.wrapping_sub(1),
        2 => number ^ (1 << draws.below(64)),
        _ => any_number(draws),
    }
}

fn any_word(night: &mut Night, draws: &mut Draws) {
    let used = night.journal.get(1).map_or(0, |used| *used as usize);
    let most = night.journal.len().min(used.saturating_add(4));
    if most > 0 {
        let place = draws.below(most);
        night.forge(place, other(night.journal[place], draws));
    }
}

/// Word 0: fewer calls than are held, more, as many as could be, or one too many.
fn calls_held(night: &mut Night, draws: &mut Draws) {
    if night.journal.len() < 2 {
        return;
    }
    let most = night.journal[1].saturating_sub(2) / 2;
    let held = match draws.below(6) {
        0 => most,
        1 => most.saturating_add(1),
        2 => 1 << 63,
        3 => night.journal[0].saturating_sub(1),
        _ => other(night.journal[0], draws),
    };
    night.forge(0, held);
}

/// Word 1: the end of another record, a place within one, or past the words.
fn words_used(night: &mut Night, draws: &mut Draws) {
    if night.journal.len() < 2 {
        return;
    }
    let ends = words::records(&night.journal);
    let used = match draws.below(6) {
        0 => night.journal.len() as u64 + draws.below(2) as u64,
        1 => draws.below(3) as u64,
        2 => other(night.journal[1], draws),
        _ if ends.is_empty() => 2,
        _ => ends[draws.below(ends.len())].1 as u64,
    };
    if draws.once_in(2) {
        night.forge(0, draws.below(3) as u64);
    }
    night.forge(1, used);
}

/// A word of the network: the copies delayed, or a word of a record.
fn network_word(night: &mut Night, draws: &mut Draws) {
    let pending = night.network[PENDING] as usize;
    let delayed = other(night.network[DELAYED], draws);
    if !(1..=128).contains(&pending) || draws.once_in(2) {
        return night.put(DELAYED, delayed);
    }
    let place = draws.below(8 * pending);
    night.put(place, other(night.network[place], draws));
}

/// Sends where the limit of messages sent is near. All those more are lost, so that the network stays well formed.
fn at_the_limit(night: &mut Night, clock: u64, draws: &mut Draws) {
    let Some(network) = Network::read(&night.network) else {
        return;
    };
    let near = SENT_LIMIT - draws.below(3) as u64;
    let more = near.saturating_sub(network.sent);
    night.put(SENT, network.sent + more);
    night.put(LOST, network.lost + more);
    for _ in 0..draws.between(1, 5) {
        send(night, clock, draws);
    }
}

// ---- Records

/// A word of one of the last records: its sort, its length, or one of the others.
fn record(night: &mut Night, draws: &mut Draws) {
    let records = words::records(&night.journal);
    if records.is_empty() {
        return any_word(night, draws);
    }
    let (start, end) = records[draws.below(records.len().min(3))];
    match draws.below(8) {
        0 => night.forge(end - 2, any_number(draws)),
        1 => night.forge(end - 1, size(start, end, draws)),
        2 => swap(night, start, end, draws),
        _ => {
            let place = draws.between(start, end - 1);
            let value = value(night, start, end, place, draws);
            night.forge(place, value);
        }
    }
}

/// A length of a record, some that would be good.
fn size(start: usize, end: usize, draws: &mut Draws) -> u64 {
    let size = (end - start) as u64;
    match draws.below(8) {
        0 => size + 8,
        1 => size.saturating_sub(8),
        2 => end as u64 - 2,
        3 => end as u64 - 1,
        4 => [0, 1, 2, 6, 7, 10][draws.below(6)],
        _ => other(size, draws),
    }
}

/// A value for a place of a record: for options one of other options, for others a number near it.
fn value(night: &Night, start: usize, end: usize, place: usize, draws: &mut Draws) -> u64 {
    let is_options = night.journal[end - 2] == 3 && end - start == 7;
    match place - start {
        0 | 1 if is_options && draws.once_in(3) => bad_probability(draws),
        at @ 0..=4 if is_options => options(draws)[at],
        _ => other(night.journal[place], draws),
    }
}

/// Two records of a take change places, which is not seen once they are queued.
fn swap(night: &mut Night, start: usize, end: usize, draws: &mut Draws) {
    let count = (end - start - 2) / 8;
    if count < 2 {
        return;
    }
    let (one, two) = (
        start + 8 * draws.below(count),
        start + 8 * draws.below(count),
    );
    for at in 0..8 {
        let words = (night.journal[one + at], night.journal[two + at]);
        night.forge(one + at, words.1);
        night.forge(two + at, words.0);
    }
}

/// Puts a made-up record behind the others, and a header that counts it, or one call less.
fn append(night: &mut Night, record: &[u64], draws: &mut Draws) {
    if words::room_for(&night.journal, record.len()).is_err() {
        return;
    }
    let (held, used) = (night.journal[0], night.journal[1]);
    for (at, word) in record.iter().enumerate() {
        night.forge(used as usize + at, *word);
    }
    night.forge(1, used + record.len() as u64);
    if !draws.once_in(4) {
        night.forge(0, held + 1);
    }
}

/// A take of records that were delivered, some numbered as one that is pending, or too many.
fn made_up_take(night: &mut Night, draws: &mut Draws) {
    let Some(network) = Network::read(&night.network) else {
        return;
    };
    let mut pending: Vec<u64> = network.pending.iter().map(|record| record[1]).collect();
    if draws.once_in(4) {
        pending.clear();
    }
    let delivered = (1..=network.seq.min(1_000)).filter(|seq| !pending.contains(seq));
    let mut numbers: Vec<u64> = delivered.collect();
    let most = if draws.once_in(12) { 130 } else { 3 };
    while numbers.len() > most || draws.once_in(3) && !numbers.is_empty() {
        numbers.swap_remove(draws.below(numbers.len()));
    }
    if draws.once_in(8) {
        numbers.push(network.seq);
    }
    let mut words = Vec::new();
    for seq in &numbers {
        let (due, sort, kind) = (any_number(draws), draws.below(2), draws.below(11));
        words.extend([due, *seq, any_number(draws), sort as u64]);
        words.extend([draws.word(), draws.word(), kind as u64, draws.word()]);
    }
    words.extend([2, 8 * numbers.len() as u64 + 2]);
    append(night, &words, draws);
}

/// A send of the last copies, all of them pending, with counts that add up, or nearly.
fn made_up_send(night: &mut Night, draws: &mut Draws) {
    let Some(network) = Network::read(&night.network) else {
        return;
    };
    let is_pending = |seq: &u64| network.pending.iter().any(|record| record[1] == *seq);
    let last = (1..=network.seq).rev().take_while(is_pending).count();
    let seq = network.seq - draws.below(last + 1) as u64;
    let sent = network.sent.saturating_sub(1);
    let least = seq.saturating_sub(sent);
    let most = seq.min(sent).max(least);
    let replayed = least + draws.word() % (most - least + 1);
    let lost = (sent + replayed).wrapping_sub(seq);
    let delayed = draws.below(seq.min(500) as usize + 1) as u64;
    let mut words = [seq, lost, replayed, delayed, 1, 6];
    if draws.once_in(4) {
        let place = draws.below(4);
        words[place] = other(words[place], draws);
    }
    append(night, &words, draws);
}

/// A change of options, from good ones or bad.
fn made_up_options(night: &mut Night, draws: &mut Draws) {
    let mut words = options_bad_once_in(3, draws).to_vec();
    if draws.once_in(6) {
        words[4] = any_number(draws);
    }
    words.extend([3, 7]);
    append(night, &words, draws);
}
