//! The lines that a simulator logs, as a running hash of each: two runs that log the same lines in the same order have
//! the same hashes. What is delivered, dropped, lost, replayed and delayed is all told in lines, with the whole message.

use log::{LevelFilter, Log, Metadata, Record};
use std::cell::RefCell;
use std::fmt::Write;
use std::sync::Once;

/// What was heard of a run.
#[derive(Default)]
pub struct Lines {
    /// The hash of all lines up to each.
    pub hashes: Vec<u64>,
    pub delivered: u64,
    pub to_crashed: u64,
    pub cut_off: u64,
    /// A line to be kept whole, by its place.
    wanted: Option<usize>,
    pub kept: Option<String>,
    hash: u64,
}

impl Lines {
    fn hear(&mut self, line: &str) {
        if self.wanted == Some(self.hashes.len()) {
            self.kept = Some(line.to_string());
        }
        self.hash = line.bytes().fold(self.hash ^ OFFSET, |hash, byte| {
            (hash ^ u64::from(byte)).wrapping_mul(PRIME)
        });
        self.hashes.push(self.hash);
        self.delivered += u64::from(line.contains(": deliver "));
        if line.contains(": drop ") {
            self.to_crashed += u64::from(line.contains(" to crashed "));
            self.cut_off += u64::from(line.ends_with(": partitioned"));
        }
    }
}

/// FNV-1a.
const OFFSET: u64 = 0xcbf2_9ce4_8422_2325;
const PRIME: u64 = 0x0000_0100_0000_01b3;

thread_local! {
    static HEARD: RefCell<(Lines, String)> = RefCell::default();
}

struct Listener;

impl Log for Listener {
    fn enabled(&self, metadata: &Metadata) -> bool {
        // Not the protocol library's own lines: they tell again what is delivered.
        metadata.target().starts_with("nights")
    }

    fn log(&self, record: &Record) {
        if !self.enabled(record.metadata()) {
            return;
        }
        HEARD.with(|heard| {
            let (lines, buffer) = &mut *heard.borrow_mut();
            buffer.clear();
            write!(buffer, "{}", record.args()).expect("a string can be written");
            lines.hear(buffer);
        });
    }

    fn flush(&self) {}
}

/// Begins to listen, and keeps the wanted line.
pub fn listen(wanted: Option<usize>) {
    static ONCE: Once = Once::new();
    ONCE.call_once(|| log::set_logger(&Listener).expect("there is no other logger"));
    log::set_max_level(LevelFilter::Trace);
    HEARD.with(|heard| {
        heard.borrow_mut().0 = Lines {
            wanted,
            ..Lines::default()
        }
    });
}

/// Ends it: what was heard.
pub fn heard() -> Lines {
    log::set_max_level(LevelFilter::Off);
    HEARD.with(|heard| std::mem::take(&mut heard.borrow_mut().0))
}
