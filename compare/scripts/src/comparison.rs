//! One script put to a reader, its answer held against the expected one, and the tally of what was met.

use crate::comments::{stray, widest, Stray, STRAYS};
use crate::expected::{answer, Answer, EVENT_WORDS};
use crate::inputs::Case;
use crate::numbers::Flaw;
use oracle::script::Event;
use std::fmt;

/// Words after those lent, which nobody may write.
const GUARD: usize = 8;

/// A reader's answer: refusal 0 and the number of events, or the refusal, the line and, for 4 and 7, what is wrong with the number.
#[derive(Clone, Copy, Debug, PartialEq, Eq)]
pub struct Reply {
    pub refusal: u32,
    pub number: u32,
    pub flaw: Flaw,
}

impl Reply {
    /// The parts of the word that the library returns.
    pub fn of_word(word: u64) -> Reply {
        let low = |shift: u32, bits: u32| (word >> shift & ((1 << bits) - 1)) as u32;
        match low(56, 8) {
            0 => Reply {
                refusal: 0,
                number: word as u32,
                flaw: Flaw::default(),
            },
            refusal => Reply {
                refusal,
                number: low(0, 24),
                flaw: Flaw {
                    why: low(48, 8),
                    byte: low(24, 24),
                },
            },
        }
    }

    /// The word that the library must return.
    pub fn word(self) -> u64 {
        let part = |number: u32, shift: u32| u64::from(number) << shift;
        part(self.refusal, 56) | part(self.flaw.why, 48) | part(self.flaw.byte, 24) | part(self.number, 0)
    }
}

/// A reader of scripts: takes a text and the words lent for events.
pub trait Reader: FnMut(&[u8], &mut [u64]) -> Reply {}

impl<F: FnMut(&[u8], &mut [u64]) -> Reply> Reader for F {}

/// A reply, and all words as the reader left them, the guard among them.
#[derive(PartialEq, Eq)]
struct Seen {
    reply: Reply,
    words: Vec<u64>,
}

/// What the rules ask for a case and what the reader did instead.
pub struct Difference {
    case: Case,
    expected: Seen,
    seen: Seen,
}

/// The sorts of answers that a run must meet.
#[derive(Clone, Copy, Debug, PartialEq, Eq)]
pub enum Outcome {
    NoEvent,
    TicksDiffer,
    /// Two events have the same tick and are not the same, so that their order shows.
    TicksEqual,
    /// The refusal, and for 4 and 7 why, else 0.
    Refused(u32, u32),
}

/// How often each outcome was met.
#[derive(Default)]
pub struct Tally {
    accepted: [usize; 3],
    refused: [usize; REFUSED.len()],
    /// Accepted with a character of two, three or four bytes in a comment as the widest.
    letters: [usize; 3],
    /// Refused with 2, by what is wrong.
    strays: [usize; STRAYS.len()],
}

/// What a case is about: the sort of its answer, and what its comments have to do with it.
#[derive(Clone, Copy, Debug, PartialEq, Eq)]
pub struct Met {
    pub outcome: Outcome,
    pub widest: usize,
    pub stray: Option<Stray>,
}

/// Each refusal, with each reason where it has one.
const REFUSED: [(u32, u32); 12] = [
    (1, 0),
    (2, 0),
    (3, 0),
    (4, 1),
    (4, 2),
    (4, 3),
    (5, 0),
    (6, 0),
    (7, 1),
    (7, 2),
    (7, 3),
    (8, 0),
];

/// Puts a case to a reader. The answer is the expected outcome, if the reader's reply and every word are as
/// expected.
pub fn compare(case: Case, reader: &mut impl Reader) -> Result<Met, Box<Difference>> {
    let answer = answer(&case.text, case.room);
    let untouched = pattern(case.room + GUARD);
    let mut words = untouched.clone();
    let reply = reader(&case.text, &mut words[..case.room]);
    let seen = Seen { reply, words };
    let expected = asked(&answer, untouched);
    if seen == expected {
        Ok(met(&case.text, &answer))
    } else {
        Err(Box::new(Difference {
            case,
            expected,
            seen,
        }))
    }
}

/// Words that no script has by chance, each its own.
fn pattern(length: usize) -> Vec<u64> {
    (0..length as u64)
        .map(|place| 0xa5c3_0f69_0000_0000 ^ place.wrapping_mul(0x0001_0001_0001))
        .collect()
}

/// The reply and the words that an answer asks for, where the words were `words` before.
fn asked(answer: &Answer, mut words: Vec<u64>) -> Seen {
    let reply = write(answer, &mut words);
    Seen { reply, words }
}

/// Writes an answer's events to the front of the words and gives its reply.
pub fn write(answer: &Answer, words: &mut [u64]) -> Reply {
    match answer {
        Answer::Accepted(events) => {
            for (event, words) in events.iter().zip(words.chunks_exact_mut(EVENT_WORDS)) {
                words.copy_from_slice(&[event.tick, event.fault, event.id]);
            }
            Reply {
                refusal: 0,
                number: events.len() as u32,
                flaw: Flaw::default(),
            }
        }
        Answer::Refused { number, line, flaw } => Reply {
            refusal: *number,
            number: *line,
            flaw: *flaw,
        },
    }
}

pub fn met(text: &[u8], answer: &Answer) -> Met {
    let outcome = outcome(answer);
    let is_stray = outcome == Outcome::Refused(2, 0);
    let is_read = matches!(answer, Answer::Accepted(_));
    Met {
        outcome,
        widest: if is_read { widest(text) } else { 1 },
        stray: is_stray.then(|| stray(text).expect("refusal 2 has a stray line").1),
    }
}

pub fn outcome(answer: &Answer) -> Outcome {
    match answer {
        Answer::Refused { number, flaw, .. } => Outcome::Refused(*number, flaw.why),
        Answer::Accepted(events) if events.is_empty() => Outcome::NoEvent,
        Answer::Accepted(events) if events.windows(2).any(order_shows) => Outcome::TicksEqual,
        Answer::Accepted(_) => Outcome::TicksDiffer,
    }
}

fn order_shows(neighbours: &[Event]) -> bool {
    neighbours[0].tick == neighbours[1].tick && neighbours[0] != neighbours[1]
}

impl Tally {
    pub fn add(&mut self, met: Met) {
        *self.place(met.outcome) += 1;
        if met.widest > 1 {
            self.letters[met.widest - 2] += 1;
        }
        if let Some(stray) = met.stray {
            let place = STRAYS.iter().position(|known| known.0 == stray);
            self.strays[place.expect("a fault of a comment")] += 1;
        }
    }

    pub fn met(&mut self, outcome: Outcome) -> usize {
        *self.place(outcome)
    }

    pub fn total(&self) -> usize {
        self.accepted.iter().chain(&self.refused).sum()
    }

    /// Whether every outcome was met.
    pub fn is_full(&self) -> bool {
        self.accepted
            .iter()
            .chain(&self.refused)
            .chain(&self.letters)
            .chain(&self.strays)
            .all(|&met| met > 0)
    }

    fn place(&mut self, outcome: Outcome) -> &mut usize {
        match outcome {
            Outcome::NoEvent => &mut self.accepted[0],
            Outcome::TicksDiffer => &mut self.accepted[1],
            Outcome::TicksEqual => &mut self.accepted[2],
            Outcome::Refused(number, why) => {
                let place = REFUSED.iter().position(|&known| known == (number, why));
                &mut self.refused[place.expect("a refusal of the rules, with its reason")]
            }
        }
    }
}

impl fmt::Display for Tally {
    fn fmt(&self, f: &mut fmt::Formatter<'_>) -> fmt::Result {
        let accepted = [
            "no event",
            "events, order by tick alone",
            "events, order of equal ticks shows",
        ];
        for (what, met) in accepted.iter().zip(self.accepted) {
            writeln!(f, "{met:>9}  accepted: {what}")?;
        }
        for (&(number, why), met) in REFUSED.iter().zip(self.refused) {
            match why {
                0 => writeln!(f, "{met:>9}  refusal {number}")?,
                why => writeln!(f, "{met:>9}  refusal {number}, why {why}")?,
            }
        }
        for (place, met) in self.letters.iter().enumerate() {
            writeln!(f, "{met:>9}  accepted with characters of up to {} bytes", place + 2)?;
        }
        for ((_, what), met) in STRAYS.iter().zip(self.strays) {
            writeln!(f, "{met:>9}  refusal 2: {what}")?;
        }
        Ok(())
    }
}

impl fmt::Display for Difference {
    fn fmt(&self, f: &mut fmt::Formatter<'_>) -> fmt::Result {
        writeln!(f, "script of length {}:", self.case.text.len())?;
        writeln!(f, "  \"{}\"", self.case.text.escape_ascii())?;
        writeln!(f, "room for events: {} words", self.case.room)?;
        writeln!(f, "expected: {}", self.told(&self.expected))?;
        writeln!(f, "ours:     {}", self.told(&self.seen))?;
        let pairs = self.expected.words.iter().zip(&self.seen.words);
        if let Some((place, (expected, seen))) = pairs.enumerate().find(|(_, (a, b))| a != b) {
            let past = if place < self.case.room {
                ""
            } else {
                ", past the room"
            };
            writeln!(
                f,
                "first word that differs: {place}{past}: expected {expected:#x}, ours {seen:#x}"
            )?;
        }
        Ok(())
    }
}

impl Difference {
    fn told(&self, seen: &Seen) -> String {
        let Reply {
            refusal,
            number,
            flaw,
        } = seen.reply;
        if refusal != 0 {
            let Flaw { why, byte } = flaw;
            return format!("refusal {refusal} at line {number}, why {why}, byte {byte}");
        }
        let lent = &seen.words[..self.case.room];
        let events: Vec<String> = lent
            .chunks_exact(EVENT_WORDS)
            .take(number as usize)
            .map(|event| format!("({}, {}, {})", event[0], event[1], event[2]))
            .collect();
        format!("accepted, {number} events: {}", events.join(" "))
    }
}
