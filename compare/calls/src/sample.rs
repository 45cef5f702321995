//! Cases written down as a list of steps, which crates/samples and rust/bellmantle/tests/samples.rs replay.
//!
//! A list is a row of numbers, seven bits a byte, the lowest first, with the top bit set on all but a number's last byte. Who replays
//! it keeps every row twice, all zeros at first: the one that is lent to the calls, and the expected one. The steps:
//!
//! | step | numbers behind it | what it does |
//! |---|---|---|
//! | 0 words | side row at count w.. | writes words: side 0 to the expected row alone, side 1 to both |
//! | 1 fill | side row at count w | writes one word so many times |
//! | 2 move | row from to count | moves words of the expected row |
//! | 3 call | which answer numbers.. | runs a call, and compares what it returns and writes |
//!
//! A part of a list leaves all rows zero, so that parts can be joined.

use crate::case::{Call, Case, Row, ROWS};
use crate::rows::Rows;
use std::collections::BTreeSet;

const WORDS: u64 = 0;
const FILL: u64 = 1;
const MOVE: u64 = 2;
const CALL: u64 = 3;

/// To the expected row alone, and to both.
const EXPECTED: u64 = 0;
const BOTH: u64 = 1;

/// From so many equal words on, they are written as one fill.
const FILLED: usize = 5;

/// So many words that stand already part what is written.
const GAP: usize = 4;

/// Records are moved by whole ones.
const RECORD: usize = 8;

pub struct Sample {
    bytes: Vec<u8>,
    /// What stands in the rows, which is the same on both sides between cases.
    rows: Rows,
    calls: u64,
    /// The refusals that were met, and 0 for calls that were accepted.
    met: BTreeSet<(Call, u64)>,
}

/// Calls with refusals that a sample must have, each at least once.
pub type Wanted = [(Call, &'static [u64])];

impl Default for Sample {
    fn default() -> Sample {
        Sample {
            bytes: Vec::new(),
            rows: Rows::zeros(),
            calls: 0,
            met: BTreeSet::new(),
        }
    }
}

impl Sample {
    pub fn calls(&self) -> u64 {
        self.calls
    }

    pub fn bytes(&self) -> usize {
        self.bytes.len()
    }

    /// Adds a case.
    pub fn add(&mut self, case: &Case) {
        self.lead_up_to(case);
        self.call(case, case.answer);
    }

    /// Whether each call was met accepted and with each of its refusals.
    pub fn is_complete(&self, wanted: &Wanted) -> bool {
        let has = |call: Call, number: u64| self.met.contains(&(call, number));
        wanted
            .iter()
            .all(|&(call, numbers)| has(call, 0) && numbers.iter().all(|&number| has(call, number)))
    }

    /// Adds the beginning of a run, up to the last case that is wanted and not met yet.
    pub fn add_missing(&mut self, wanted: &Wanted, run: &[Case]) {
        let is_missing = |case: &Case| {
            let number = case.call.refusal(case.answer);
            let is_wanted = |&(call, numbers): &(Call, &[u64])| {
                call == case.call && (number == 0 || numbers.contains(&number))
            };
            wanted.iter().any(is_wanted) && !self.met.contains(&(case.call, number))
        };
        if let Some(last) = run.iter().rposition(is_missing) {
            run[..=last].iter().for_each(|case| self.add(case));
        }
    }

    /// Adds a case with another answer, which must be reported.
    pub fn add_wrong_answer(&mut self, case: &Case, answer: u64) {
        assert_ne!(answer, case.answer);
        self.lead_up_to(case);
        self.call(case, answer);
    }

    /// Adds a case with another expected word at a place, which must be reported; behind it the word is put right.
    pub fn add_wrong_word(&mut self, case: &Case, row: Row, place: usize) {
        assert!(case.call.writes().contains(&row));
        self.lead_up_to(case);
        let right = self.rows.row(row)[place];
        self.step(&[WORDS, EXPECTED, row as u64, place as u64, 1, right ^ 1]);
        self.call(case, case.answer);
        self.step(&[WORDS, EXPECTED, row as u64, place as u64, 1, right]);
    }

    /// Adds runs of cases until for each of the calls a wrong answer was among them and a wrong word of each row that it may write, a
    /// wide row's first and last.
    pub fn add_wrong(&mut self, calls: &[Call], mut run: impl FnMut() -> Vec<Case>) {
        let mut wanted: Vec<Wrong> = calls.iter().flat_map(|&call| wrongs(call)).collect();
        while !wanted.is_empty() {
            for case in run() {
                let place = wanted.iter().position(|(call, _)| *call == case.call);
                match place.map(|place| wanted.remove(place)) {
                    None => self.add(&case),
                    Some((_, None)) => self.add_wrong_answer(&case, case.answer ^ 1),
                    Some((_, Some((row, at)))) => self.add_wrong_word(&case, row, at),
                }
            }
        }
    }

    /// The list, with all rows zero at its end.
    pub fn end(mut self) -> Vec<u8> {
        for (row, words) in ROWS {
            self.write(BOTH, row, 0, &vec![0; words]);
        }
        self.bytes
    }

    fn lead_up_to(&mut self, case: &Case) {
        for words in &case.before {
            self.write(BOTH, words.row, words.at, &words.words);
        }
        for words in &case.after {
            self.write(EXPECTED, words.row, words.at, &words.words);
        }
    }

    fn call(&mut self, case: &Case, answer: u64) {
        self.step(&[CALL, case.call as u64, answer]);
        self.step(&case.numbers);
        self.calls += 1;
        self.met.insert((case.call, case.call.refusal(case.answer)));
    }

    fn step(&mut self, numbers: &[u64]) {
        for &number in numbers {
            let mut left = number;
            while left > 127 {
                self.bytes.push(left as u8 | 128);
                left >>= 7;
            }
            self.bytes.push(left as u8);
        }
    }

    /// Words that stand in a row from now on: what does not stand there yet is written.
    fn write(&mut self, side: u64, row: Row, at: usize, words: &[u64]) {
        let mut old = self.rows.row(row)[at..at + words.len()].to_vec();
        if side == EXPECTED && row == Row::Records {
            for (from, to, count) in moves(&mut old, words) {
                let at = at as u64;
                self.step(&[
                    MOVE,
                    row as u64,
                    at + from as u64,
                    at + to as u64,
                    count as u64,
                ]);
            }
        }
        for (place, count) in regions(&old, words) {
            let new = &words[place..place + count];
            let head = [side, row as u64, (at + place) as u64, count as u64];
            if count >= FILLED && is_one_word(new) {
                self.step(&[FILL]);
                self.step(&head);
                self.step(&new[..1]);
            } else {
                self.step(&[WORDS]);
                self.step(&head);
                self.step(new);
            }
        }
        self.rows.row_mut(row)[at..at + words.len()].copy_from_slice(words);
    }
}

/// A call with a wrong answer, or a wrong word at a place.
type Wrong = (Call, Option<(Row, usize)>);

fn wrongs(call: Call) -> Vec<Wrong> {
    let mut found = vec![(call, None)];
    for &row in call.writes() {
        let places = match row {
            Row::Told1 => vec![0],
            // The words that tell how a call ended are left, so that it is counted alike whichever row is looked at.
            Row::Told3 | Row::Told4 => vec![2],
            Row::Told6 => vec![2, row.words() - 1],
            Row::Core => vec![2, row.words() - 1],
            _ => vec![0, row.words() - 1],
        };
        found.extend(places.into_iter().map(|at| (call, Some((row, at)))));
    }
    found
}

fn is_one_word(words: &[u64]) -> bool {
    words.windows(2).all(|pair| pair[0] == pair[1])
}

/// Where words are to be written, place and count: those of a region are all one word, or no five of them in a row are.
fn regions(old: &[u64], new: &[u64]) -> Vec<(usize, usize)> {
    let mut found = Vec::new();
    let mut place = 0;
    while place < new.len() {
        if old[place] == new[place] {
            place += 1;
            continue;
        }
        let start = place;
        let mut end = place + 1;
        // Up to the last word that differs before a gap.
        while place < new.len() && place < end + GAP {
            if old[place] != new[place] {
                end = place + 1;
            }
            place += 1;
        }
        place = end;
        split(start, &new[start..end], &mut found);
    }
    found
}

/// Parts words into runs of one word and what stands between.
fn split(start: usize, words: &[u64], found: &mut Vec<(usize, usize)>) {
    let mut at = start;
    let mut loose = 0;
    for run in words.chunk_by(|a, b| a == b) {
        if run.len() < FILLED {
            loose += run.len();
            continue;
        }
        if loose > 0 {
            found.push((at, loose));
        }
        at += loose;
        found.push((at, run.len()));
        at += run.len();
        loose = 0;
    }
    if loose > 0 {
        found.push((at, loose));
    }
}

/// How many bytes the regions take, about.
fn cost(old: &[u64], new: &[u64]) -> usize {
    let size = |word: u64| (64 - (word | 1).leading_zeros() as usize).div_ceil(7);
    regions(old, new)
        .into_iter()
        .map(|(place, count)| {
            let words = &new[place..place + count];
            if count >= FILLED && is_one_word(words) {
                6 + size(words[0])
            } else {
                6 + words.iter().map(|&word| size(word)).sum::<usize>()
            }
        })
        .sum()
}

/// Moves of records that leave less to be written, made in `old` as well: from, to, count.
fn moves(old: &mut [u64], new: &[u64]) -> Vec<(usize, usize, usize)> {
    const MOVE_BYTES: usize = 8;
    let mut made = Vec::new();
    for _ in 0..4 {
        let now = cost(old, new);
        let best = candidates(old, new)
            .into_iter()
            .map(|(from, to, count)| {
                let mut moved = old.to_vec();
                moved.copy_within(from..from + count, to);
                (cost(&moved, new) + MOVE_BYTES, (from, to, count))
            })
            .min();
        match best {
            Some((then, (from, to, count))) if then < now => {
                old.copy_within(from..from + count, to);
                made.push((from, to, count));
            }
            _ => break,
        }
    }
    made
}

/// Moves from or to the first record that differs, where that puts one record right.
fn candidates(old: &[u64], new: &[u64]) -> Vec<(usize, usize, usize)> {
    let Some(place) = (0..new.len()).find(|&place| old[place] != new[place]) else {
        return Vec::new();
    };
    let here = place - place % RECORD;
    let used = old
        .iter()
        .rposition(|&word| word != 0)
        .map_or(0, |last| last + 1);
    let used = used.next_multiple_of(RECORD);
    let record = |words: &[u64], at: usize| words[at..at + RECORD].to_vec();
    let mut found = Vec::new();
    for there in (here + RECORD..new.len()).step_by(RECORD) {
        if here < used && record(old, here) == record(new, there) {
            found.push((here, there, (used - here).min(new.len() - there)));
        }
        if there < used && record(old, there) == record(new, here) {
            found.push((there, here, used - there));
        }
    }
    found
}

#[cfg(test)]
mod tests {
    use super::*;

    #[test]
    fn a_number_takes_seven_bits_a_byte() {
        let mut sample = Sample::default();
        sample.step(&[0, 127, 128, u64::MAX]);
        let mut expected = vec![0, 127, 128, 1];
        expected.extend([255; 9]);
        expected.push(1);
        assert_eq!(sample.bytes, expected);
    }

    #[test]
    fn equal_words_are_filled_and_others_are_written() {
        let old = [0; 20];
        let mut new = [0; 20];
        new[2..9].fill(7);
        new[9] = 5;
        new[15] = 1;
        assert_eq!(regions(&old, &new), [(2, 7), (9, 1), (15, 1)]);
    }

    #[test]
    fn a_record_put_between_others_moves_them() {
        let mut old: Vec<u64> = (1..=80).collect();
        old.resize(1_024, 0);
        let mut new = old.clone();
        new.copy_within(16..80, 24);
        new[16..24].fill(900);
        assert_eq!(moves(&mut old, &new), [(16, 24, 64)]);
        assert_eq!(regions(&old, &new), [(16, 8)]);
    }

    #[test]
    fn records_taken_move_the_others_to_the_front() {
        let mut old: Vec<u64> = (1..=80).collect();
        old.resize(1_024, 0);
        let mut new = old.clone();
        new.copy_within(24.., 0);
        assert_eq!(moves(&mut old, &new), [(24, 0, 56)]);
        assert_eq!(regions(&old, &new), [(56, 24)]);
    }
}
