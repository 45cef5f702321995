//! The journal's words, by the rules alone (docs/RULES.md, "Journal"): word 0 the calls held, word 1 the words used,
//! then a record for each call, which ends with its sort and its length.

use crate::plain::{Network, Record};

const HEADER: u64 = 2;

pub const SEND_WORDS: usize = 6;
pub const OPTIONS_WORDS: usize = 7;

/// Whether words 0 and 1 can head a journal of so many words.
pub fn has_good_header(journal: &[u64]) -> bool {
    let [held, used, ..] = journal else {
        return false;
    };
    (HEADER..=journal.len() as u64).contains(used)
        && 2 * u128::from(*held) <= u128::from(used - HEADER)
}

/// 31, 32 or room for a record of so many words.
pub fn room_for(journal: &[u64], size: usize) -> Result<(), u64> {
    if !has_good_header(journal) {
        return Err(31);
    }
    if journal[1] as usize + size > journal.len() {
        return Err(32);
    }
    Ok(())
}

/// The record of a send on this network.
pub fn of_send(before: &Network) -> Vec<u64> {
    vec![
        before.seq,
        before.lost,
        before.replayed,
        before.delayed,
        1,
        6,
    ]
}

pub fn of_take(taken: &[Record]) -> Vec<u64> {
    let mut words = taken.concat();
    words.extend([2, 8 * taken.len() as u64 + 2]);
    words
}

pub fn of_options(before: &Network) -> Vec<u64> {
    let mut words = before.options.to_vec();
    words.extend([3, 7]);
    words
}

/// A record written behind the others, where there is room.
pub fn append(journal: &mut [u64], record: &[u64]) {
    let used = journal[1] as usize;
    journal[used..used + record.len()].copy_from_slice(record);
    journal[0] += 1;
    journal[1] += record.len() as u64;
}

/// Record by record from the last, the network before k calls and where the first of their records starts: nothing if
/// one does not fit or leaves an ill formed network.
pub fn undone(network: &Network, journal: &[u64], k: u64) -> Option<(Network, u64)> {
    let mut network = network.clone();
    let mut end = journal[1];
    for _ in 0..k {
        let (sort, size) = (journal[end as usize - 2], journal[end as usize - 1]);
        let start = end.checked_sub(size).filter(|start| *start >= HEADER)?;
        let words = journal.get(start as usize..(end as usize).checked_sub(2)?)?;
        network = network.before(sort, words)?;
        end = start;
    }
    Some((network, end))
}

/// Where the records of a journal start and end, from the last back, as far as their lengths are possible.
pub fn records(journal: &[u64]) -> Vec<(usize, usize)> {
    let mut found = Vec::new();
    if !has_good_header(journal) {
        return found;
    }
    let mut end = journal[1] as usize;
    while end > 3 && (2..=end as u64 - 2).contains(&journal[end - 1]) {
        let start = end - journal[end - 1] as usize;
        found.push((start, end));
        end = start;
    }
    found
}
