//! A call of include/bellmantle.h as data: which one, its numbers, the words put into the rows that it is lent, and what is expected
//! of it. Rows stand from call to call.

use bellmantle::raw;
use std::borrow::Cow;
use Row::{
    Core, Events, Head, Journal, Out, Plants, Records, Told1, Told3, Told4, Told6, Tracker,
    Verdicts,
};

/// The rows that calls are lent. A call is lent the front of a row, or all of it where its length is fixed.
#[derive(Clone, Copy, Debug, PartialEq, Eq, PartialOrd, Ord)]
pub enum Row {
    /// Bytes.
    Text,
    Events,
    Head,
    Records,
    Draws,
    Extras,
    Sends,
    Out,
    Journal,
    Told1,
    Told3,
    Told4,
    Plants,
    Recovering,
    Picks,
    Core,
    Snapshot,
    Logs,
    /// Signed numbers by their bits.
    Values,
    Ids,
    Tracker,
    Told6,
    Verdicts,
}

/// Every row, by its number in a list of calls, with its words.
pub const ROWS: [(Row, usize); 23] = [
    (Row::Text, 65_600),
    (Row::Events, 6_200),
    (Row::Head, raw::HEAD_WORDS),
    (Row::Records, raw::RECORDS_WORDS),
    (Row::Draws, 64),
    (Row::Extras, 64),
    (Row::Sends, 600),
    (Row::Out, 1_040),
    (Row::Journal, 2_064),
    (Row::Told1, 1),
    (Row::Told3, 3),
    (Row::Told4, 4),
    (Row::Plants, raw::PLANTS_WORDS),
    (Row::Recovering, 20),
    (Row::Picks, 64),
    (Row::Core, raw::CORE_WORDS),
    (Row::Snapshot, 64),
    (Row::Logs, 7_700),
    (Row::Values, 20),
    (Row::Ids, 20),
    (Row::Tracker, 2_460),
    (Row::Told6, raw::FATE_WORDS),
    (Row::Verdicts, 20),
];

impl Row {
    pub fn words(self) -> usize {
        ROWS[self as usize].1
    }
}

/// The calls, by their numbers in a list of calls: the header's order, and behind them the fate and the verdicts on a
/// take, which were added later.
#[derive(Clone, Copy, Debug, PartialEq, Eq, PartialOrd, Ord)]
pub enum Call {
    ParseScript,
    NetworkNew,
    NetworkSetOptions,
    NetworkSend,
    NetworkTakeDue,
    NetworkPending,
    NetworkInFlight,
    NetworkTick,
    JournalMark,
    JournalSend,
    JournalTakeDue,
    JournalSetOptions,
    JournalRewind,
    PlantsNew,
    PlantsApply,
    PlantsVerdict,
    PlantsChooseCore,
    PropertiesFresh,
    PropertiesReboot,
    PropertiesTick,
    PropertiesEnd,
    Fate,
    PlantsVerdicts,
}

/// A call's name, the names of its numbers, and the rows that it may write.
struct Shape {
    name: &'static str,
    numbers: &'static [&'static str],
    writes: &'static [Row],
}

const fn shape(
    name: &'static str,
    numbers: &'static [&'static str],
    writes: &'static [Row],
) -> Shape {
    Shape {
        name,
        numbers,
        writes,
    }
}

const OPTIONS: &[&str] = &["loss", "replay", "min", "mean", "flag"];

const SHAPES: [Shape; 23] = [
    shape("parse_script", &["text_len", "events_len"], &[Events]),
    shape("network_new", OPTIONS, &[Head, Records]),
    shape("network_set_options", OPTIONS, &[Head]),
    shape(
        "network_send",
        &[
            "now",
            "sort",
            "origin",
            "to",
            "kind",
            "handle",
            "draws_len",
            "extras_len",
        ],
        &[Head, Records, Told4],
    ),
    shape(
        "network_take_due",
        &["now", "out_len"],
        &[Head, Records, Out, Told1],
    ),
    shape("network_pending", &[], &[Told1]),
    shape("network_in_flight", &["out_len"], &[Out, Told1]),
    shape(
        "network_tick",
        &["sends_len", "draws_len", "extras_len", "now", "out_len"],
        &[Head, Records, Out, Told3],
    ),
    shape("journal_mark", &["journal_len"], &[Journal]),
    shape(
        "journal_send",
        &[
            "now",
            "sort",
            "origin",
            "to",
            "kind",
            "handle",
            "draws_len",
            "extras_len",
            "journal_len",
        ],
        &[Head, Records, Journal, Told4],
    ),
    shape(
        "journal_take_due",
        &["now", "out_len", "journal_len"],
        &[Head, Records, Out, Journal, Told1],
    ),
    shape(
        "journal_set_options",
        &["loss", "replay", "min", "mean", "flag", "journal_len"],
        &[Head, Journal],
    ),
    shape(
        "journal_rewind",
        &["k", "journal_len"],
        &[Head, Records, Journal],
    ),
    shape("plants_new", &["n"], &[Plants]),
    shape(
        "plants_apply",
        &["tick", "fault", "id", "draws_len"],
        &[Plants, Told1],
    ),
    shape("plants_verdict", &["sort", "id", "to"], &[Told1]),
    shape(
        "plants_choose_core",
        &["recovering_len", "picks_len", "full"],
        &[Plants, Core],
    ),
    shape("properties_fresh", &["n", "tracker_len"], &[Tracker]),
    shape("properties_reboot", &["n", "id", "tracker_len"], &[Tracker]),
    shape(
        "properties_tick",
        &["n", "plants_len", "logs_len", "tracker_len"],
        &[Tracker, Told4],
    ),
    shape(
        "properties_end",
        &[
            "n",
            "plants_len",
            "logs_len",
            "values_len",
            "core_len",
            "tracker_len",
        ],
        &[Told4],
    ),
    shape(
        "fate",
        &[
            "loss",
            "replay",
            "min",
            "mean",
            "flag",
            "now",
            "kind",
            "draws_len",
            "extras_len",
        ],
        &[Told6],
    ),
    // The records stand in the row that a take writes them to.
    shape("plants_verdicts", &["records_len", "told_len"], &[Verdicts]),
];

impl Call {
    pub fn name(self) -> &'static str {
        SHAPES[self as usize].name
    }

    /// The names of its numbers, in their order.
    pub fn numbers(self) -> &'static [&'static str] {
        SHAPES[self as usize].numbers
    }

    /// The rows that it may write.
    pub fn writes(self) -> &'static [Row] {
        SHAPES[self as usize].writes
    }

    /// The number of a refusal in a returned word, or 0.
    pub fn refusal(self, answer: u64) -> u64 {
        match self {
            Call::ParseScript => answer >> 56,
            Call::NetworkTick => answer >> 32,
            _ => answer,
        }
    }
}

/// Words of a row, from a place on.
#[derive(Clone, Debug, PartialEq, Eq)]
pub struct Words {
    pub row: Row,
    pub at: usize,
    pub words: Vec<u64>,
}

/// A call with what is put into rows before it, and what is expected of it.
#[derive(Clone, Debug)]
pub struct Case {
    pub before: Vec<Words>,
    pub call: Call,
    pub numbers: Vec<u64>,
    /// The word that it returns.
    pub answer: u64,
    /// Words expected afterwards. All others are expected as they were.
    pub after: Vec<Words>,
    /// What is counted as met.
    pub met: Vec<Cow<'static, str>>,
}

impl Case {
    pub fn new(call: Call, numbers: &[u64], answer: u64) -> Case {
        assert_eq!(numbers.len(), call.numbers().len(), "{}", call.name());
        Case {
            before: Vec::new(),
            call,
            numbers: numbers.to_vec(),
            answer,
            after: Vec::new(),
            met: Vec::new(),
        }
    }

    /// With words put into a row before it.
    pub fn put(mut self, row: Row, at: usize, words: &[u64]) -> Case {
        self.before.push(Words {
            row,
            at,
            words: words.to_vec(),
        });
        self
    }

    /// With a row filled before it.
    pub fn filled(self, row: Row, word: u64) -> Case {
        self.put(row, 0, &vec![word; row.words()])
    }

    /// With words of a row expected after it.
    pub fn expects(mut self, row: Row, at: usize, words: &[u64]) -> Case {
        self.after.push(Words {
            row,
            at,
            words: words.to_vec(),
        });
        self
    }

    /// With an outcome counted.
    pub fn meets(mut self, outcome: impl Into<Cow<'static, str>>) -> Case {
        self.met.push(outcome.into());
        self
    }
}
