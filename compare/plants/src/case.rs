//! A case: a call with its lent lists, and the answer and the state that are expected of it.

use calls::case::{self, Row};
use calls::nets::PATTERN;
use calls::raw::{record, RECORD_WORDS};

/// The most plants, for which every state has room.
pub const MOST: usize = 15;

/// A state as handed in, which may break the rules.
#[derive(Clone, Debug, PartialEq, Eq)]
pub struct Words {
    pub n: u64,
    pub up: u64,
    pub partitioned: u64,
    pub counts: [u64; 3],
    pub stable_until: [u64; MOST],
}

#[derive(Clone, Debug)]
pub enum Call {
    New,
    Apply {
        fault: u64,
        id: u64,
        tick: u64,
        draws: Vec<u64>,
    },
    Verdict {
        sort: u64,
        id: u64,
        to: u64,
    },
    /// The words of records, and how many words there are for verdicts.
    Verdicts {
        records: Vec<u64>,
        room: usize,
    },
    Core {
        full: u64,
        flags: Vec<u64>,
        picks: Vec<u64>,
    },
}

#[derive(Clone, Debug, PartialEq, Eq)]
pub enum Answer {
    Done,
    Nonce(u64),
    Verdict(u64),
    Verdicts(Vec<u64>),
    Core { ids: Vec<u64>, used: u64 },
    Refused(u64),
}

#[derive(Clone, Debug)]
pub struct Case {
    pub before: Words,
    pub call: Call,
    pub answer: Answer,
    pub after: Words,
    /// A word of the state as handed in that stands otherwise, as no state of ours has it.
    pub odd: Option<(usize, u64)>,
}

/// What is counted of a fault, by its number: one that leaves every flag, and one that changes one.
const FAULTS: [[&str; 2]; 6] = [
    ["crash of a down plant", "crash counted"],
    ["restart of an up plant", "restart counted"],
    ["reboot of an up plant", "reboot of a down plant"],
    ["partition of a cut off plant", "partition"],
    ["heal of a reached plant", "heal"],
    ["heal-all of none", "heal-all"],
];

/// What is counted of a verdict, by its number: on a plant's message, and on a client's.
const VERDICTS: [[&str; 2]; 3] = [
    ["deliver from a plant", "deliver from a client"],
    [
        "receiver down, from a plant",
        "receiver down, from a client",
    ],
    ["cut off, from a plant", "cut off, from a client"],
];

/// What is counted of verdicts in one call, by how many they are.
const SEVERAL: [&str; 3] = ["verdicts on none", "verdicts on one", "verdicts on several"];

/// The refusals of verdicts in one call, which are counted by themselves; and those that a record behind the first has.
pub const VERDICTS_REFUSED: [u64; 5] = [24, 30, 40, 41, 42];
const BEHIND: [u64; 2] = [24, 41];

/// Every outcome but the refusals.
pub fn outcomes() -> Vec<String> {
    let mut names = vec!["new".to_string()];
    for name in FAULTS.iter().chain(&VERDICTS).flatten() {
        names.push(name.to_string());
    }
    names.extend(SEVERAL.map(String::from));
    names.extend(VERDICTS_REFUSED.map(|number| format!("verdicts refused by {number}")));
    names.extend(BEHIND.map(|number| format!("verdicts refused by {number}, not at the first")));
    names.push("picked core".to_string());
    names.push("full core".to_string());
    names.extend((2..=MOST).map(|size| format!("core of {size}")));
    names
}

impl Words {
    /// The state of a refused new.
    pub fn zero() -> Words {
        Words {
            n: 0,
            up: 0,
            partitioned: 0,
            counts: [0; 3],
            stable_until: [0; MOST],
        }
    }

    /// As the calls have it: n, a word for each flag, ticks and counts.
    pub fn words(&self) -> Vec<u64> {
        let flags = |bits: u64| (0..MOST).map(move |id| bits >> id & 1);
        let mut words = vec![self.n];
        words.extend(flags(self.up));
        words.extend(flags(self.partitioned));
        words.extend(self.stable_until);
        words.extend(self.counts);
        words
    }
}

impl Case {
    /// The case with its rows. What is told is told into a pattern.
    pub fn call(&self) -> case::Case {
        let refusal = match self.answer {
            Answer::Refused(number) => number,
            _ => 0,
        };
        let make = |call: case::Call, numbers: &[u64]| {
            let mut case = case::Case::new(call, numbers, refusal);
            for row in [Row::Told1, Row::Core, Row::Verdicts] {
                if call.writes().contains(&row) {
                    case = case.filled(row, PATTERN);
                }
            }
            case
        };
        let made = match &self.call {
            Call::New => make(case::Call::PlantsNew, &[self.before.n]).filled(Row::Plants, PATTERN),
            Call::Apply {
                fault,
                id,
                tick,
                draws,
            } => {
                let numbers = [*tick, *fault, *id, draws.len() as u64];
                let made = make(case::Call::PlantsApply, &numbers);
                self.lent(made).put(Row::Draws, 0, draws)
            }
            Call::Verdict { sort, id, to } => {
                self.lent(make(case::Call::PlantsVerdict, &[*sort, *id, *to]))
            }
            Call::Verdicts { records, room } => {
                let numbers = [records.len() as u64, *room as u64];
                let made = self.lent(make(case::Call::PlantsVerdicts, &numbers));
                made.put(Row::Out, 0, records)
            }
            Call::Core { full, flags, picks } => {
                let numbers = [flags.len() as u64, picks.len() as u64, *full];
                let made = make(case::Call::PlantsChooseCore, &numbers);
                let made = self.lent(made).put(Row::Recovering, 0, flags);
                made.put(Row::Picks, 0, picks)
            }
        };
        self.expected(self.counted(made))
    }

    /// With the state before.
    fn lent(&self, made: case::Case) -> case::Case {
        let mut words = self.before.words();
        if let Some((place, word)) = self.odd {
            words[place] = word;
        }
        made.put(Row::Plants, 0, &words)
    }

    /// With the state after and what is told. A refusal leaves all words.
    fn expected(&self, made: case::Case) -> case::Case {
        let made = match &self.answer {
            Answer::Refused(_) => return made,
            Answer::Done => made,
            Answer::Nonce(word) | Answer::Verdict(word) => made.expects(Row::Told1, 0, &[*word]),
            Answer::Verdicts(words) => made.expects(Row::Verdicts, 0, words),
            Answer::Core { ids, used } => {
                let mut told = vec![ids.len() as u64, *used];
                told.extend(ids);
                told.resize(Row::Core.words(), 0);
                made.expects(Row::Core, 0, &told)
            }
        };
        match self.call {
            Call::Verdict { .. } | Call::Verdicts { .. } => made,
            _ => made.expects(Row::Plants, 0, &self.after.words()),
        }
    }

    /// With the outcomes that it meets.
    fn counted(&self, made: case::Case) -> case::Case {
        let (before, after) = (&self.before, &self.after);
        match (&self.call, &self.answer) {
            (Call::Verdicts { records, .. }, Answer::Refused(number)) => {
                let made = made.meets(format!("verdicts refused by {number}"));
                // The first record's receiver and sort are good.
                if BEHIND.contains(number) && is_passed(before, &records[..RECORD_WORDS]) {
                    return made.meets(format!("verdicts refused by {number}, not at the first"));
                }
                made
            }
            (Call::Verdicts { .. }, Answer::Verdicts(words)) => {
                made.meets(SEVERAL[words.len().min(2)])
            }
            (_, Answer::Refused(number)) => made.meets(format!("refusal {number}")),
            (Call::New, _) => made.meets("new"),
            (Call::Apply { fault, .. }, _) => {
                let changes = before.up != after.up || before.partitioned != after.partitioned;
                made.meets(FAULTS[*fault as usize][usize::from(changes)])
            }
            (Call::Verdict { sort, .. }, Answer::Verdict(number)) => {
                made.meets(VERDICTS[*number as usize][*sort as usize])
            }
            (Call::Core { full, .. }, Answer::Core { ids, .. }) => {
                let which = if *full == 0 {
                    "picked core"
                } else {
                    "full core"
                };
                made.meets(which).meets(format!("core of {}", ids.len()))
            }
            _ => unreachable!("an answer is of its call"),
        }
    }
}

/// Whether a record names plants alone, and a sort that there is.
fn is_passed(state: &Words, words: &[u64]) -> bool {
    let is_plant = |place: usize| words[place] < state.n;
    match words[record::SORT] {
        0 => is_plant(record::TO) && is_plant(record::ORIGIN),
        1 => is_plant(record::TO),
        _ => false,
    }
}
