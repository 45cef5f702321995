//! Fault scripts, as the Rust's `parse_script` reads them.

use crate::simulator::{parse_script, Fault};

/// The names of the faults, at the places that are their numbers.
pub const FAULT_NAMES: [&str; 6] = [
    "crash",
    "restart",
    "reboot",
    "partition",
    "heal",
    "heal-all",
];

/// The number of the one fault that has no id.
pub const HEAL_ALL: u64 = 5;

/// A fault and its tick, in numbers; the id of heal-all is 0.
#[derive(Clone, Copy, Debug, PartialEq, Eq)]
pub struct Event {
    pub tick: u64,
    pub fault: u64,
    pub id: u64,
}

/// Why the Rust refuses a script, in our rules' number for it (RULES, "Refusal numbers").
#[derive(Clone, Copy, Debug, PartialEq, Eq)]
pub struct Complaint {
    pub number: u32,
    /// The line, counted from 1, where the Rust tells it: for 3 and 4 alone.
    pub line: Option<u32>,
}

/// Runs the Rust's `parse_script`.
pub fn run(text: &str) -> Result<Vec<Event>, Complaint> {
    match parse_script(text) {
        Ok(script) => Ok(script
            .into_iter()
            .map(|(tick, fault)| event(tick, fault))
            .collect()),
        Err(message) => Err(complaint(&message)),
    }
}

fn event(tick: u64, fault: Fault) -> Event {
    let (fault, id) = match fault {
        Fault::Crash(id) => (0, id),
        Fault::Restart(id) => (1, id),
        Fault::Reboot(id) => (2, id),
        Fault::Partition(id) => (3, id),
        Fault::Heal(id) => (4, id),
        Fault::HealAll => (HEAL_ALL, 0),
    };
    Event {
        tick,
        fault,
        id: id as u64,
    }
}

/// Reads the Rust's message. One that is none of the five known kinds ends the run: the comparison would
/// otherwise guess.
fn complaint(message: &str) -> Complaint {
    if let Some((line, what)) = message
        .strip_prefix("line ")
        .and_then(|rest| rest.split_once(": "))
    {
        let line = Some(line.parse().expect("the Rust's line is a number"));
        if what == "expected TICK FAULT" {
            return Complaint { number: 3, line };
        }
        if what.starts_with("bad tick ") {
            return Complaint { number: 4, line };
        }
    }
    let number = if message.starts_with("unknown fault ") {
        5
    } else if message.ends_with(" needs a replica id") {
        6
    } else if message.ends_with(": bad replica id") {
        7
    } else {
        panic!("a message of the Rust that the comparison does not know: {message:?}")
    };
    Complaint { number, line: None }
}
