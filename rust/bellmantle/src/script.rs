//! Fault scripts.

use crate::raw::{self, EVENT_WORDS};
use crate::Refusal;
use std::fmt;

/// A fault injected by hand.
#[derive(Clone, Copy, Debug, PartialEq, Eq)]
pub enum Fault {
    /// Crash a plant; it keeps its state, as if paused.
    Crash(u64),
    /// Bring a crashed plant back with its state.
    Restart(u64),
    /// Bring a crashed plant back with no memory.
    Reboot(u64),
    /// Cut a plant off from every other plant and client.
    Partition(u64),
    /// Reconnect a partitioned plant.
    Heal(u64),
    /// Reconnect every partitioned plant.
    HealAll,
}

impl Fault {
    /// Its number and id, as the library's words have them.
    pub fn words(self) -> (u64, u64) {
        match self {
            Fault::Crash(id) => (0, id),
            Fault::Restart(id) => (1, id),
            Fault::Reboot(id) => (2, id),
            Fault::Partition(id) => (3, id),
            Fault::Heal(id) => (4, id),
            Fault::HealAll => (5, 0),
        }
    }

    fn of_words(number: u64, id: u64) -> Fault {
        match number {
            0 => Fault::Crash(id),
            1 => Fault::Restart(id),
            2 => Fault::Reboot(id),
            3 => Fault::Partition(id),
            4 => Fault::Heal(id),
            5 => Fault::HealAll,
            number => panic!("the library has no fault {number}"),
        }
    }
}

impl fmt::Display for Fault {
    fn fmt(&self, f: &mut fmt::Formatter<'_>) -> fmt::Result {
        match self {
            Fault::Crash(id) => write!(f, "crash {id}"),
            Fault::Restart(id) => write!(f, "restart {id}"),
            Fault::Reboot(id) => write!(f, "reboot {id}"),
            Fault::Partition(id) => write!(f, "partition {id}"),
            Fault::Heal(id) => write!(f, "heal {id}"),
            Fault::HealAll => write!(f, "heal-all"),
        }
    }
}

/// What to inject, and at which tick.
pub type FaultScript = Vec<(u64, Fault)>;

/// Why a word is no number.
#[derive(Clone, Copy, Debug, PartialEq, Eq, Hash)]
pub enum Why {
    /// 1: it ends where a digit must stand.
    NoDigit,
    /// 2: a byte that is no digit, such as the comma of `1,500`.
    StrayByte,
    /// 3: with this digit it passes 2^64 - 1.
    TooLarge,
}

impl Why {
    /// Its number in the rules.
    pub fn number(self) -> u64 {
        match self {
            Why::NoDigit => 1,
            Why::StrayByte => 2,
            Why::TooLarge => 3,
        }
    }

    fn of(number: u64) -> Why {
        match number {
            1 => Why::NoDigit,
            2 => Why::StrayByte,
            3 => Why::TooLarge,
            number => panic!("the library has no reason {number}"),
        }
    }
}

impl fmt::Display for Why {
    fn fmt(&self, f: &mut fmt::Formatter<'_>) -> fmt::Result {
        f.write_str(match self {
            Why::NoDigit => "a digit is missing",
            Why::StrayByte => "a stray byte",
            Why::TooLarge => "too large",
        })
    }
}

/// Where a number went bad: why, and at which byte of its word, counted from 0. The earliest reason wins.
#[derive(Clone, Copy, Debug, PartialEq, Eq, Hash)]
#[allow(missing_docs)]
pub struct Flaw {
    pub why: Why,
    pub byte: u32,
}

/// Why a script is refused, the line that it is about, counted from 1 (0 for a text too long), and for [`Refusal::BadTick`] and
/// [`Refusal::BadId`], and for them alone, where the number went bad.
#[derive(Clone, Copy, Debug, PartialEq, Eq)]
#[allow(missing_docs)]
pub struct ScriptError {
    pub refusal: Refusal,
    pub line: u32,
    pub flaw: Option<Flaw>,
}

impl ScriptError {
    /// The parts of a word that the library returned for a refusal.
    fn of(packed: u64) -> ScriptError {
        let flaw = match raw::refused_why(packed) {
            0 => None,
            number => Some(Flaw {
                why: Why::of(number),
                byte: raw::refused_byte(packed) as u32,
            }),
        };
        ScriptError {
            refusal: Refusal::of(raw::refused_number(packed)),
            line: raw::refused_line(packed) as u32,
            flaw,
        }
    }
}

impl fmt::Display for ScriptError {
    fn fmt(&self, f: &mut fmt::Formatter<'_>) -> fmt::Result {
        write!(f, "line {}: {}", self.line, self.refusal)?;
        match self.flaw {
            None => Ok(()),
            Some(Flaw { why, byte }) => write!(f, ": {why} at byte {byte} of the word"),
        }
    }
}

impl std::error::Error for ScriptError {}

/// The shortest event that a text can hold, `0 heal 0` and its line feed, has nine bytes.
const EVENT_BYTES: usize = 9;

/// Parses a script with one `TICK FAULT` for each line, `#` starting a comment.
pub fn parse_script(text: &[u8]) -> Result<FaultScript, ScriptError> {
    let mut words = vec![0; (text.len() / EVENT_BYTES + 1) * EVENT_WORDS];
    let count = parse_script_into(text, &mut words)?;
    Ok(words[..count * EVENT_WORDS]
        .chunks_exact(EVENT_WORDS)
        .map(|event| (event[0], Fault::of_words(event[1], event[2])))
        .collect())
}

/// The same into lent words, three for each event; how many events there are. On an error no word is changed.
pub fn parse_script_into(text: &[u8], events: &mut [u64]) -> Result<usize, ScriptError> {
    let packed = raw::parse_script(text, events);
    match raw::refused_number(packed) {
        0 => Ok(packed as usize),
        _ => Err(ScriptError::of(packed)),
    }
}
