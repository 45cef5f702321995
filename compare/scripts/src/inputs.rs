//! The scripts that a run compares: short ones exhaustively, those chosen by hand, and random ones of
//! several sorts, each with a room for events.

use crate::comments::{commented, exhaustive};
use crate::corners;
use crate::expected::{events_found, EVENT_WORDS, LONGEST_TEXT};
use crate::words::{
    damage, edge_number, good_name, good_number, line, line_end, odd_number, white,
};
use calls::draws::Draws;

/// A script, and how many words are lent for its events.
pub struct Case {
    pub text: Vec<u8>,
    pub room: usize,
}

/// Single bytes, and the pieces of a whole line: all texts of a few of them are compared.
const BYTES: [&str; 6] = ["1", "+", " ", "\n", "#", "x"];
const LONGEST_OF_BYTES: usize = 5;
const PIECES: [&str; 8] = ["1", "+", " ", "\n", "#", "\r", "crash", "heal-all"];
const LONGEST_OF_PIECES: usize = 6;

/// The bytes of words that are nearly numbers: all words of a few of them are compared, as a tick and as an id.
const NUMERAL_BYTES: [&str; 7] = ["+", "-", "0", "1", "9", ",", "x"];
const LONGEST_NUMERAL: usize = 5;

/// The rooms, in words, that a script chosen by hand is compared with.
const ROOMS_OF_CORNERS: [usize; 7] = [0, 2, 3, 5, 6, 18, 40];

/// One random script in so many is about as long as a text may be.
const LONG_ONCE_IN: usize = 400;

/// One in so many is about the comments.
const COMMENTED_ONCE_IN: usize = 6;

/// Every case of a run: the fixed ones, whose rooms alone depend on the seed, then `count` random ones.
pub fn cases(seed: u64, count: usize) -> impl Iterator<Item = Case> {
    let mut rooms = Draws::new(seed);
    let mut draws = Draws::new(!seed);
    let short = all_texts(&BYTES, LONGEST_OF_BYTES).chain(all_texts(&PIECES, LONGEST_OF_PIECES));
    let short = short.map(move |text| Case {
        text,
        room: rooms.below(4 * EVENT_WORDS),
    });
    let numerals = all_texts(&NUMERAL_BYTES, LONGEST_NUMERAL).skip(1).flat_map(|word| {
        [
            [&word[..], b" heal-all"].concat(),
            [b"1 heal ", &word[..]].concat(),
        ]
        .map(|text| Case {
            text,
            room: EVENT_WORDS,
        })
    });
    let corners = corners::all().flat_map(|text| {
        ROOMS_OF_CORNERS.iter().map(move |&room| Case {
            text: text.clone(),
            room,
        })
    });
    let comments = exhaustive().map(|text| Case {
        text,
        room: 2 * EVENT_WORDS,
    });
    short
        .chain(numerals)
        .chain(comments)
        .chain(corners)
        .chain((0..count).map(move |_| random_case(&mut draws)))
}

/// All texts of at most `longest` pieces.
fn all_texts(pieces: &'static [&'static str], longest: usize) -> impl Iterator<Item = Vec<u8>> {
    (0..=longest).flat_map(move |length| {
        (0..pieces.len().pow(length as u32)).map(move |number| nth_text(pieces, length, number))
    })
}

/// The text whose pieces are the digits of `number`, to the base of their number.
fn nth_text(pieces: &[&str], length: usize, mut number: usize) -> Vec<u8> {
    let mut text = Vec::new();
    for _ in 0..length {
        text.extend(pieces[number % pieces.len()].bytes());
        number /= pieces.len();
    }
    text
}

fn random_case(draws: &mut Draws) -> Case {
    let mut text = if draws.once_in(LONG_ONCE_IN) {
        long_text(draws)
    } else if draws.once_in(COMMENTED_ONCE_IN) {
        commented(draws)
    } else {
        short_text(draws)
    };
    if draws.once_in(25) {
        put_byte_over_127(draws, &mut text);
    }
    let room = room_near(draws, events_found(&text));
    Case { text, room }
}

/// A random script of bytes up to 127.
pub fn short_text(draws: &mut Draws) -> Vec<u8> {
    match draws.below(10) {
        0..=2 => lines(draws).into_bytes(),
        3 | 4 => ordered_ticks(draws).into_bytes(),
        5..=7 => damaged_script(draws),
        8 => one_number(draws).into_bytes(),
        _ => loose_bytes(draws),
    }
}

/// A few lines, of which some pieces are odd: often, rarely or never.
fn lines(draws: &mut Draws) -> String {
    let rarity = [4, 12, 40, 1_000_000][draws.below(4)];
    let mut text = String::new();
    for _ in 0..draws.between(1, 8) {
        text += &line(draws, rarity);
        text += line_end(draws);
    }
    if draws.once_in(3) {
        text += &line(draws, rarity);
    }
    text
}

/// A good script whose ticks rise, fall, are all equal, or are drawn from few. The ids tell events of equal
/// ticks apart.
fn ordered_ticks(draws: &mut Draws) -> String {
    let count = draws.between(2, 40);
    let order = draws.below(5);
    let few = draws.between(1, 6);
    let start = if draws.once_in(3) {
        u64::MAX - count as u64
    } else {
        draws.below(100) as u64
    };
    let mut text = String::new();
    for place in 0..count {
        let tick = match order {
            0 => start + place as u64,
            1 => start + (count - place) as u64,
            2 => start,
            3 => start + draws.below(few) as u64,
            _ => draws.word(),
        };
        let name = good_name(draws);
        text += &format!("{tick}{}{name} {place}{}", white(draws), line_end(draws));
    }
    text
}

/// A good script with one byte changed, dropped or doubled, or two.
fn damaged_script(draws: &mut Draws) -> Vec<u8> {
    let mut text = String::new();
    for _ in 0..draws.between(1, 10) {
        text += &format!(
            "{} {} {}\n",
            good_number(draws),
            good_name(draws),
            draws.below(16)
        );
    }
    let mut text = text.into_bytes();
    damage(draws, &mut text);
    if draws.once_in(4) {
        damage(draws, &mut text);
    }
    text
}

/// One line about one number, at the edge of what is read.
fn one_number(draws: &mut Draws) -> String {
    let number = match draws.below(4) {
        0 => odd_number(draws),
        1 => {
            let number = edge_number(draws);
            stray_in(draws, number)
        },
        _ => edge_number(draws),
    };
    match draws.below(3) {
        0 => format!("{number} heal-all"),
        1 => format!("5 {} {number}\n", good_name(draws)),
        _ => format!("{number} {} {number}", good_name(draws)),
    }
}

/// A number with a byte put in somewhere, before or behind the place at which it may be too large.
fn stray_in(draws: &mut Draws, number: String) -> String {
    let place = draws.below(number.len() + 1);
    let byte = *draws.pick(&[&",", &"x", &"+", &"-", &"0", &"9"]);
    format!("{}{byte}{}", &number[..place], &number[place..])
}

/// Bytes that mean something in a script, in any order.
fn loose_bytes(draws: &mut Draws) -> Vec<u8> {
    const MEANING: &[u8] = b"0123456789+-,# \t\r\n\x0b\x0c\x1c\x1d\x1e\x1f\x7fcrashel";
    (0..draws.below(24))
        .map(|_| MEANING[draws.below(MEANING.len())])
        .collect()
}

/// A text of about the greatest length, from a few bytes below to a few above, and rarely far above.
fn long_text(draws: &mut Draws) -> Vec<u8> {
    let length = match draws.below(8) {
        0 => LONGEST_TEXT + draws.below(10_000),
        1..=3 => LONGEST_TEXT,
        _ => draws.between(LONGEST_TEXT - 2, LONGEST_TEXT + 2),
    };
    let mut text = Vec::with_capacity(length + 100);
    let same_tick = draws.once_in(2);
    match draws.below(5) {
        0 => text.push(b'#'),
        1 => text.extend(short_text(draws)),
        2 => text.extend(b"0"),
        3 => {}
        _ => {
            while text.len() < length {
                let tick = if same_tick {
                    7
                } else {
                    draws.word() >> draws.below(64)
                };
                text.extend(format!("{tick} {} {}\n", good_name(draws), text.len()).bytes());
            }
        }
    }
    let end = if draws.once_in(2) {
        short_text(draws)
    } else {
        b"1 heal-all".to_vec()
    };
    let filler = *draws.pick(&[&b'\n', &b' ', &b'0', &b'#', &b'\r']);
    text.resize(length.saturating_sub(end.len()), filler);
    text.extend(end);
    text.truncate(length);
    text
}

fn put_byte_over_127(draws: &mut Draws, text: &mut Vec<u8>) {
    let byte = draws.between(128, 255) as u8;
    let place = draws.below(text.len() + 1);
    match text.get_mut(place) {
        Some(old) if draws.once_in(2) => *old = byte,
        _ => text.insert(place, byte),
    }
}

/// A room, in words, near what the given number of events needs: enough, exactly enough, short by a word or
/// by an event, or none.
fn room_near(draws: &mut Draws, events: usize) -> usize {
    let needed = EVENT_WORDS * events;
    match draws.below(10) {
        0..=4 => needed + draws.below(4 * EVENT_WORDS),
        5 => needed,
        6 => needed.saturating_sub(1),
        7 => needed.saturating_sub(EVENT_WORDS),
        8 => draws.below(needed + 1),
        _ => draws.below(EVENT_WORDS),
    }
}

#[cfg(test)]
mod tests {
    use super::*;

    #[test]
    fn every_short_text_comes_once() {
        let mut texts: Vec<_> = all_texts(&BYTES, 3).collect();
        assert_eq!(texts.len(), 1 + 6 + 36 + 216);
        texts.sort();
        texts.dedup();
        assert_eq!(texts.len(), 1 + 6 + 36 + 216);
    }

    #[test]
    fn a_seed_gives_the_same_random_scripts() {
        let texts = |seed| -> Vec<_> {
            let mut draws = Draws::new(seed);
            (0..50).map(|_| random_case(&mut draws).text).collect()
        };
        assert_eq!(texts(3), texts(3));
        assert_ne!(texts(3), texts(4));
    }

    #[test]
    fn long_texts_have_every_length_around_the_greatest() {
        let mut draws = Draws::new(1);
        let lengths: Vec<_> = (0..200).map(|_| long_text(&mut draws).len()).collect();
        for length in LONGEST_TEXT - 2..=LONGEST_TEXT + 2 {
            assert!(lengths.contains(&length), "{length}");
        }
    }
}
