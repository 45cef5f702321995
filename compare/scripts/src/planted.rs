//! Faults that can be planted in a reader, to see that the comparison reports them.

use crate::comparison::{Reader, Reply};
use crate::expected::EVENT_WORDS;
use crate::numbers::Flaw;

#[derive(Clone, Copy, Debug, PartialEq, Eq)]
pub enum Plant {
    /// A comma between two digits is read over, so that `1,500` is 1500.
    Comma,
    /// Events of equal ticks come in reverse order.
    Order,
    /// Lines count from 0.
    Line,
    /// Byte 31 parts words as white space does.
    White,
    /// A refusal clears the first word lent.
    Word,
    /// The byte of a bad number counts from 1.
    Byte,
    /// A number too large is told as a stray byte.
    Why,
    /// The reason of a bad id is dropped.
    Id,
    /// Any bytes may stand in a comment.
    Latin,
    /// A byte over 127 before the hash is a letter like others.
    Letter,
}

pub const ALL: [(&str, Plant); 10] = [
    ("comma", Plant::Comma),
    ("order", Plant::Order),
    ("line", Plant::Line),
    ("white", Plant::White),
    ("word", Plant::Word),
    ("byte", Plant::Byte),
    ("why", Plant::Why),
    ("id", Plant::Id),
    ("latin", Plant::Latin),
    ("letter", Plant::Letter),
];

/// The reader with a fault planted, or as it is.
pub fn planted(plant: Option<Plant>, mut reader: impl Reader) -> impl Reader {
    move |text: &[u8], words: &mut [u64]| {
        let reply = match plant {
            Some(Plant::Comma) => reader(&without_commas(text), words),
            Some(Plant::White) => reader(&with_31_white(text), words),
            Some(Plant::Latin) => reader(&with_letters(text, true), words),
            Some(Plant::Letter) => reader(&with_letters(text, false), words),
            _ => reader(text, words),
        };
        spoiled(plant, reply, words)
    }
}

fn without_commas(text: &[u8]) -> Vec<u8> {
    let is_digit = |place: usize| text.get(place).is_some_and(u8::is_ascii_digit);
    let parts_digits = |place: usize| place > 0 && is_digit(place - 1) && is_digit(place + 1);
    let kept = |&place: &usize| text[place] != b',' || !parts_digits(place);
    (0..text.len())
        .filter(kept)
        .map(|place| text[place])
        .collect()
}

fn with_31_white(text: &[u8]) -> Vec<u8> {
    text.iter()
        .map(|&byte| if byte == 31 { b' ' } else { byte })
        .collect()
}

/// The bytes over 127 in the comments, or before them, as plain letters.
fn with_letters(text: &[u8], in_comments: bool) -> Vec<u8> {
    let mut is_comment = false;
    let plain = |&byte: &u8| {
        is_comment = byte != b'\n' && (is_comment || byte == b'#');
        if byte > 127 && is_comment == in_comments {
            b'x'
        } else {
            byte
        }
    };
    text.iter().map(plain).collect()
}

fn spoiled(plant: Option<Plant>, mut reply: Reply, words: &mut [u64]) -> Reply {
    match plant {
        Some(Plant::Order) if reply.refusal == 0 => {
            let written = words.len().min(EVENT_WORDS * reply.number as usize);
            reverse_equal_ticks(&mut words[..written]);
        }
        Some(Plant::Line) if reply.refusal != 0 => reply.number = reply.number.saturating_sub(1),
        Some(Plant::Word) if reply.refusal != 0 => {
            words.iter_mut().take(1).for_each(|word| *word = 0)
        }
        Some(Plant::Byte) if reply.flaw.why != 0 => reply.flaw.byte += 1,
        Some(Plant::Why) if reply.flaw.why == 3 => reply.flaw.why = 2,
        Some(Plant::Id) if reply.refusal == 7 => reply.flaw = Flaw::default(),
        _ => {}
    }
    reply
}

fn reverse_equal_ticks(words: &mut [u64]) {
    let mut backwards: Vec<Vec<u64>> = words
        .rchunks_exact(EVENT_WORDS)
        .map(<[u64]>::to_vec)
        .collect();
    backwards.sort_by_key(|event| event[0]);
    for (event, place) in backwards.iter().zip(words.chunks_exact_mut(EVENT_WORDS)) {
        place.copy_from_slice(event);
    }
}

#[cfg(test)]
mod tests {
    use super::*;
    use crate::comparison::{compare, write, Tally};
    use crate::expected::answer;
    use crate::inputs::cases;

    /// Compares the expected answers with themselves, a fault planted; tells whether a difference was found.
    fn reported(plant: Option<Plant>) -> bool {
        let mut reader = planted(plant, |text: &[u8], words: &mut [u64]| {
            write(&answer(text, words.len()), words)
        });
        let mut tally = Tally::default();
        let differs = cases(1, 4_000).any(|case| match compare(case, &mut reader) {
            Ok(outcome) => {
                tally.add(outcome);
                false
            }
            Err(_) => true,
        });
        assert!(
            differs || tally.is_full(),
            "a run without a difference meets every outcome\n{tally}"
        );
        differs
    }

    #[test]
    fn no_fault_no_difference() {
        assert!(!reported(None));
    }

    #[test]
    fn each_planted_fault_is_reported() {
        for (name, plant) in ALL {
            assert!(reported(Some(plant)), "{name}");
        }
    }
}
