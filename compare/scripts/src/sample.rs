//! The part of the stored sample that is about scripts: those chosen by hand and random ones with the Rust's answers, each refusal and
//! limit with the rules' own, and some with a wrong expectation.

use crate::comments;
use crate::comparison::{met, outcome, write, Outcome, Tally};
use crate::corners;
use crate::expected::{answer, Answer};
use crate::inputs::short_text;
use crate::rules;
use calls::case::{Call, Case, Row};
use calls::draws::Draws;
use calls::nets::PATTERN;
use calls::sample::Sample;
use std::collections::BTreeSet;

/// Room for all events that a text of the sample may hold.
pub const ROOM: usize = 6_144;

/// The longest random text, in bytes.
const LONGEST: usize = 300;

const SEED: u64 = 2_026;

/// How many cases of each outcome the random scripts fill up to, after those chosen by hand.
const WANTED: [(Outcome, usize); 12] = [
    (Outcome::NoEvent, 20),
    (Outcome::TicksDiffer, 60),
    (Outcome::TicksEqual, 40),
    (Outcome::Refused(3, 0), 20),
    (Outcome::Refused(4, 1), 8),
    (Outcome::Refused(4, 2), 40),
    (Outcome::Refused(4, 3), 15),
    (Outcome::Refused(5, 0), 30),
    (Outcome::Refused(6, 0), 20),
    (Outcome::Refused(7, 1), 8),
    (Outcome::Refused(7, 2), 30),
    (Outcome::Refused(7, 3), 15),
];

/// How many scripts are about their comments.
const COMMENTED: usize = 60;

/// Short rooms, in words, for scripts chosen by hand.
const SHORT_ROOMS: [usize; 4] = [0, 2, 3, 5];

/// A script and a room as a case, its events written into a pattern.
fn case(text: &[u8], room: usize, answer: &Answer) -> Case {
    let bytes: Vec<u64> = text.iter().map(|&byte| u64::from(byte)).collect();
    let mut events = vec![PATTERN; room];
    let reply = write(answer, &mut events);
    Case::new(
        Call::ParseScript,
        &[text.len() as u64, room as u64],
        reply.word(),
    )
        .put(Row::Text, 0, &bytes)
        .filled(Row::Events, PATTERN)
        .expects(Row::Events, 0, &events)
}

#[derive(Default)]
struct Texts {
    cases: Vec<Case>,
    tally: Tally,
    texts: BTreeSet<Vec<u8>>,
}

impl Texts {
    /// Adds a text with the Rust's answer, unless it is there already.
    fn add(&mut self, text: Vec<u8>) {
        if self.texts.contains(&text) {
            return;
        }
        let answer = answer(&text, ROOM);
        self.cases.push(case(&text, ROOM, &answer));
        self.tally.add(met(&text, &answer));
        self.texts.insert(text);
    }

    fn wants(&mut self, text: &[u8]) -> bool {
        let found = outcome(&answer(text, ROOM));
        let is_wanted = |&(outcome, wanted): &(Outcome, usize)| {
            outcome == found && self.tally.met(outcome) < wanted
        };
        text.len() <= LONGEST && WANTED.iter().any(is_wanted)
    }

    fn is_complete(&mut self) -> bool {
        WANTED
            .iter()
            .all(|&(outcome, wanted)| self.tally.met(outcome) >= wanted)
    }
}

/// The sample's cases, and after them those with a wrong expectation.
pub fn sample() -> Sample {
    let mut texts = Texts::default();
    corners::all().for_each(|text| texts.add(text));
    let mut draws = Draws::new(SEED);
    for _ in 0..COMMENTED {
        texts.add(comments::commented(&mut draws));
    }
    while !texts.is_complete() {
        let text = short_text(&mut draws);
        if texts.wants(&text) {
            texts.add(text);
        }
    }
    for (place, text) in corners::all().enumerate() {
        let room = SHORT_ROOMS[place % SHORT_ROOMS.len()];
        texts.cases.push(case(&text, room, &answer(&text, room)));
    }
    for (text, answer) in rules::cases() {
        texts.cases.push(case(&text, ROOM, &answer));
    }
    let mut sample = Sample::default();
    texts.cases.iter().for_each(|case| sample.add(case));
    assert!(sample.is_complete(&[(Call::ParseScript, &[1, 2, 3, 4, 5, 6, 7, 8])]));
    let good = b"20 heal-all\n5 crash 1 # east\n";
    let good = case(good, ROOM, &answer(good, ROOM));
    let refused = case(b"\n5", ROOM, &answer(b"\n5", ROOM));
    sample.add_wrong_answer(&good, good.answer + 1);
    sample.add_wrong_answer(&refused, refused.answer + 1);
    sample.add_wrong_word(&good, Row::Events, 2);
    sample.add_wrong_word(&good, Row::Events, 6_199);
    sample.add_wrong_word(&refused, Row::Events, 0);
    sample
}
