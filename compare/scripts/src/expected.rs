//! The answer that a script must get, taken from runs of the Rust.
//!
//! The Rust decides every accepted script and refusals 3 to 7; what is wrong with a number is a plain evaluation of the rules on its word. Refusals 1, 2 and 8 are our own (RULES, "Fault
//! scripts"): 1 and 2 come before any run, and 8 asks the Rust how many events a beginning of the text holds.

use crate::comments::stray;
use crate::numbers::{flaw, Flaw};
use oracle::script::{run, Event};

/// The longest text that is read, in bytes.
pub const LONGEST_TEXT: usize = 65_536;

/// The words of one event.
pub const EVENT_WORDS: usize = 3;

#[derive(Clone, Debug, PartialEq, Eq)]
pub enum Answer {
    /// The events, in order of their ticks.
    Accepted(Vec<Event>),
    Refused {
        number: u32,
        line: u32,
        /// What is wrong with the number, for 4 and 7; zeros otherwise.
        flaw: Flaw,
    },
}

/// A refusal that is not about a number.
pub fn refused(number: u32, line: u32) -> Answer {
    let flaw = Flaw::default();
    Answer::Refused { number, line, flaw }
}

/// The answer for a text where `room` words are lent for events.
pub fn answer(text: &[u8], room: usize) -> Answer {
    if text.len() > LONGEST_TEXT {
        return refused(1, 0);
    }
    if let Some((line, _)) = stray(text) {
        return refused(2, number(line));
    }
    let text = std::str::from_utf8(text).expect("lines that are not stray are UTF-8");
    let events = room / EVENT_WORDS;
    let beginnings = beginnings(text);
    let accepted = beginnings.partition_point(|beginning| fits(beginning, events));
    match beginnings.get(accepted) {
        None => Answer::Accepted(run(text).expect("the longest beginning is the text")),
        Some(beginning) => {
            let refusal = refusal(text, beginning, accepted + 1);
            Answer::Refused {
                number: refusal,
                line: number(accepted + 1),
                flaw: flaw_of(beginning, refusal),
            }
        }
    }
}

/// How many events the Rust finds before the line that it refuses, or in the whole text.
pub fn events_found(text: &[u8]) -> usize {
    let Ok(text) = std::str::from_utf8(text) else {
        return 0;
    };
    let beginnings = beginnings(text);
    let accepted = beginnings.partition_point(|beginning| run(beginning).is_ok());
    let longest = accepted.checked_sub(1).map_or("", |last| beginnings[last]);
    run(longest).map_or(0, |events| events.len())
}

/// The refusal of the shortest beginning that does not fit, which ends with the given line: the Rust's, or
/// 8 where the Rust accepts it.
fn refusal(text: &str, beginning: &str, line: usize) -> u32 {
    match run(beginning) {
        Ok(_) => 8,
        Err(complaint) => {
            assert_eq!(
                run(text),
                Err(complaint),
                "the Rust refuses a text as it refuses its beginning"
            );
            if let Some(told) = complaint.line {
                assert_eq!(
                    told,
                    number(line),
                    "the Rust's line is that of the shortest refused beginning"
                );
            }
            complaint.number
        }
    }
}

/// What is wrong with the number for which the last line of a beginning is refused: its first word's for 4, its third word's for 7.
fn flaw_of(beginning: &str, refusal: u32) -> Flaw {
    let place = match refusal {
        4 => 0,
        7 => 2,
        _ => return Flaw::default(),
    };
    let line = beginning.split_inclusive('\n').last().unwrap_or("");
    let code = line.split('#').next().unwrap_or("");
    let word = code.split_whitespace().nth(place);
    let word = word.expect("a line with a bad number has it");
    flaw(word.as_bytes()).expect("the Rust refuses no number of the rules")
}

/// Whether the Rust accepts a beginning and finds no more than `events` events in it. What holds for a
/// beginning holds for every shorter one, since the Rust reads line by line.
fn fits(beginning: &str, events: usize) -> bool {
    run(beginning).is_ok_and(|found| found.len() <= events)
}

/// The beginnings of a text in whole lines, of one line, two lines and so on up to the whole.
fn beginnings(text: &str) -> Vec<&str> {
    let mut end = 0;
    let whole_lines = text.split_inclusive('\n');
    whole_lines
        .map(|line| {
            end += line.len();
            &text[..end]
        })
        .collect()
}

fn number(line: usize) -> u32 {
    u32::try_from(line).expect("a text that is read has fewer than 2^32 lines")
}

#[cfg(test)]
mod tests {
    use super::*;
    use oracle::script::{FAULT_NAMES, HEAL_ALL};

    /// An answer in lines.
    fn report(answer: &Answer) -> String {
        match answer {
            Answer::Accepted(events) => {
                let mut lines = format!("events={}\n", events.len());
                for event in events {
                    lines += &format!(
                        "tick={}\nfault={}\n",
                        event.tick, FAULT_NAMES[event.fault as usize]
                    );
                    if event.fault != HEAL_ALL {
                        lines += &format!("id={}\n", event.id);
                    }
                }
                lines
            }
            Answer::Refused { number, line, flaw } if flaw.why == 0 => {
                format!("refusal={number}\nline={line}\n")
            }
            Answer::Refused { number, line, flaw } => {
                let Flaw { why, byte } = flaw;
                format!("refusal={number}\nline={line}\nwhy={why}\nbyte={byte}\n")
            }
        }
    }

    fn told(text: &[u8], room: usize) -> String {
        report(&answer(text, room))
    }

    #[test]
    fn the_script_of_the_rules() {
        let text = b"20 heal-all\n5 crash 1 # east\n";
        assert_eq!(
            told(text, 6),
            "events=2\ntick=5\nfault=crash\nid=1\ntick=20\nfault=heal-all\n"
        );
    }

    #[test]
    fn a_text_too_long_comes_before_a_byte_over_127() {
        assert_eq!(told(&[b'\n'; LONGEST_TEXT], 0), "events=0\n");
        assert_eq!(told(&[200; LONGEST_TEXT + 1], 0), "refusal=1\nline=0\n");
    }

    #[test]
    fn a_byte_over_127_comes_before_an_earlier_faulty_line() {
        assert_eq!(told(b"5\n\x80", 0), "refusal=2\nline=2\n");
        assert_eq!(told(b"5\n\n# \xff", 0), "refusal=2\nline=3\n");
    }

    #[test]
    fn a_comment_may_be_in_any_language() {
        let text = "5 crash 1 # Süd-Ost\n".as_bytes();
        assert_eq!(told(text, 3), "events=1\ntick=5\nfault=crash\nid=1\n");
        assert_eq!(told("5 cräsh 1\n".as_bytes(), 3), "refusal=2\nline=1\n");
    }

    #[test]
    fn each_refusal_of_the_rust_has_its_line() {
        assert_eq!(told(b"\n5\n", 3), "refusal=3\nline=2\n");
        assert_eq!(told(b"#\n\n1,500 heal-all", 3), "refusal=4\nline=3\nwhy=2\nbyte=1\n");
        assert_eq!(told(b"1 heal 1\n5 foo\n5", 3), "refusal=5\nline=2\n");
        assert_eq!(told(b"\r\n\r\n5 crash\n", 3), "refusal=6\nline=3\n");
        assert_eq!(
            told(b"5 crash 18446744073709551616x", 3),
            "refusal=7\nline=1\nwhy=3\nbyte=19\n"
        );
    }

    #[test]
    fn room_counts_in_whole_events_and_is_tested_last_on_its_line() {
        assert_eq!(told(b"x y", 0), "refusal=4\nline=1\nwhy=2\nbyte=0\n");
        assert_eq!(told(b"1 heal-all", 2), "refusal=8\nline=1\n");
        assert_eq!(told(b"1 heal-all", 5), "events=1\ntick=1\nfault=heal-all\n");
        assert_eq!(
            told(b"1 heal-all\n\n2 heal-all\n3", 5),
            "refusal=8\nline=3\n"
        );
        assert_eq!(
            told(b"1 heal-all\n\n2 heal-all\n3", 6),
            "refusal=3\nline=4\n"
        );
        assert_eq!(told(b"1 heal-all\n2 x", 3), "refusal=5\nline=2\n");
    }

    #[test]
    fn events_before_a_refused_line_are_found() {
        assert_eq!(events_found(b"1 heal-all\n2 heal-all\n3\n4 heal-all"), 2);
        assert_eq!(events_found(b"3"), 0);
        assert_eq!(events_found(b""), 0);
    }
}
