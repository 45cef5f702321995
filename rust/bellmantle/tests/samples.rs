//! Replays the stored sample of calls, crates/samples/stdin, through `bellmantle::raw`, and holds the tally against
//! crates/samples/stdout. The sample has answers of the simulator, and of the rules where the simulator has none; some of its
//! expectations are wrong on purpose, so that a replay that sees nothing fails.
//!
//! The list is a row of numbers, seven bits a byte, the lowest first, the top bit set on all but a number's last byte. Every row is kept
//! twice, as it is lent to the calls and as it is expected, and begins as zeros.

use bellmantle::raw;
use std::collections::BTreeMap;
use std::path::Path;

/// The words of each row.
const ROOMS: [usize; 23] = [
    65_600, 6_200, 12, 1_024, 64, 64, 600, 1_040, 2_064, 1, 3, 4, 49, 20, 64, 17, 64, 7_700, 20,
    20, 2_460, 6, 20,
];

const TEXT: usize = 0;
const EVENTS: usize = 1;
const HEAD: usize = 2;
const RECORDS: usize = 3;
const OUT: usize = 7;
const JOURNAL: usize = 8;
const TOLD1: usize = 9;
const TOLD3: usize = 10;
const TOLD4: usize = 11;
const PLANTS: usize = 12;
const CORE: usize = 15;
const TRACKER: usize = 20;
const TOLD6: usize = 21;
const VERDICTS: usize = 22;

/// A call's name, how many numbers it has, and the rows that it may write.
const CALLS: [(&str, usize, &[usize]); 23] = [
    ("parse_script", 2, &[EVENTS]),
    ("network_new", 5, &[HEAD, RECORDS]),
    ("network_set_options", 5, &[HEAD]),
    ("network_send", 8, &[HEAD, RECORDS, TOLD4]),
    ("network_take_due", 2, &[HEAD, RECORDS, OUT, TOLD1]),
    ("network_pending", 0, &[TOLD1]),
    ("network_in_flight", 1, &[OUT, TOLD1]),
    ("network_tick", 5, &[HEAD, RECORDS, OUT, TOLD3]),
    ("journal_mark", 1, &[JOURNAL]),
    ("journal_send", 9, &[HEAD, RECORDS, JOURNAL, TOLD4]),
    ("journal_take_due", 3, &[HEAD, RECORDS, OUT, JOURNAL, TOLD1]),
    ("journal_set_options", 6, &[HEAD, JOURNAL]),
    ("journal_rewind", 2, &[HEAD, RECORDS, JOURNAL]),
    ("plants_new", 1, &[PLANTS]),
    ("plants_apply", 4, &[PLANTS, TOLD1]),
    ("plants_verdict", 3, &[TOLD1]),
    ("plants_choose_core", 3, &[PLANTS, CORE]),
    ("properties_fresh", 2, &[TRACKER]),
    ("properties_reboot", 3, &[TRACKER]),
    ("properties_tick", 4, &[TRACKER, TOLD4]),
    ("properties_end", 6, &[TOLD4]),
    ("fate", 9, &[TOLD6]),
    ("plants_verdicts", 2, &[VERDICTS]),
];

type Rows = [Vec<u64>; 23];

/// What is counted of a call: how often, how often otherwise than expected, refusals, and outcomes by a place and a name.
#[derive(Default)]
struct Count {
    times: u64,
    differing: u64,
    refusals: BTreeMap<u64, u64>,
    outcomes: BTreeMap<(u64, String), u64>,
}

struct Replay<'a> {
    list: &'a [u8],
    at: usize,
    mine: Rows,
    expected: Rows,
    counts: BTreeMap<usize, Count>,
}

impl<'a> Replay<'a> {
    fn new(list: &'a [u8]) -> Replay<'a> {
        Replay {
            list,
            at: 0,
            mine: ROOMS.map(|room| vec![0; room]),
            expected: ROOMS.map(|room| vec![0; room]),
            counts: BTreeMap::new(),
        }
    }

    /// The next number, or none if the list ends within it or it is over 2^64 - 1.
    fn number(&mut self) -> Option<u64> {
        let mut number: u64 = 0;
        for place in 0..10 {
            let byte = u64::from(*self.list.get(self.at)?);
            self.at += 1;
            let bits = byte & 127;
            if place == 9 && bits > 1 {
                return None;
            }
            number |= bits << (7 * place);
            if byte < 128 {
                return Some(number);
            }
        }
        None
    }

    fn place(&mut self) -> Option<usize> {
        usize::try_from(self.number()?).ok()
    }

    fn step(&mut self) -> Option<()> {
        match self.number()? {
            0 => self.words(false),
            1 => self.words(true),
            2 => self.shift(),
            3 => self.case(),
            _ => None,
        }
    }

    /// Words written to the expected row, or to both; all the same word if they are filled.
    fn words(&mut self, filled: bool) -> Option<()> {
        let side = self.number()?;
        let (row, at, count) = (self.place()?, self.place()?, self.place()?);
        let end = at.checked_add(count)?;
        if side > 1 || end > *ROOMS.get(row)? {
            return None;
        }
        let mut word = 0;
        for place in at..end {
            if !filled || place == at {
                word = self.number()?;
            }
            if row == TEXT && word > 255 {
                return None;
            }
            self.expected[row][place] = word;
            if side == 1 {
                self.mine[row][place] = word;
            }
        }
        // A fill of nothing has its word too.
        if filled && count == 0 {
            self.number()?;
        }
        Some(())
    }

    fn shift(&mut self) -> Option<()> {
        let (row, from, to, count) = (self.place()?, self.place()?, self.place()?, self.place()?);
        let words = self.expected.get_mut(row)?;
        let end = from.checked_add(count)?;
        if end > words.len() || to.checked_add(count)? > words.len() {
            return None;
        }
        words.copy_within(from..end, to);
        Some(())
    }

    fn case(&mut self) -> Option<()> {
        let which = self.place()?;
        let expected = self.number()?;
        let (_, numbers, writes) = CALLS.get(which)?;
        let numbers: Vec<u64> = (0..*numbers)
            .map(|_| self.number())
            .collect::<Option<_>>()?;
        let answer = call(which, &numbers, &mut self.mine)?;
        let is_same = |row: &usize| self.mine[*row] == self.expected[*row];
        let agrees = answer == expected && writes.iter().all(is_same);
        let outcome = outcome(which, answer, &self.mine);
        let count = self.counts.entry(which).or_default();
        count.times += 1;
        count.differing += u64::from(!agrees);
        let refusal = match which {
            0 => raw::refused_number(answer),
            7 => answer >> 32,
            _ => answer,
        };
        if refusal != 0 {
            *count.refusals.entry(refusal).or_default() += 1;
        } else {
            *count.outcomes.entry(outcome).or_default() += 1;
        }
        Some(())
    }
}

/// What an accepted call is counted as, with its place among the outcomes of the call.
fn outcome(which: usize, answer: u64, mine: &Rows) -> (u64, String) {
    let named = |place: u64, names: &[&str]| (place, names[place as usize].to_string());
    match which {
        0 => named(u64::from(answer != 0), &["no event", "events"]),
        3 | 9 | 21 => {
            let told = if which == 21 { TOLD6 } else { TOLD4 };
            let place = match mine[told][..2] {
                [1, _] => 0,
                [_, 1] => 1,
                _ => 2,
            };
            named(place, &["lost", "replayed", "queued once"])
        }
        4 | 6 | 10 => named(u64::from(mine[TOLD1][0] != 0), &["none", "some"]),
        15 => (mine[TOLD1][0], mine[TOLD1][0].to_string()),
        16 => (mine[CORE][0], mine[CORE][0].to_string()),
        19 | 20 => (mine[TOLD4][0], mine[TOLD4][0].to_string()),
        _ => named(0, &["done"]),
    }
}

/// The first so many words of a row.
fn front(row: &mut [u64], count: u64) -> Option<&mut [u64]> {
    row.get_mut(..usize::try_from(count).ok()?)
}

/// All of a row whose width is fixed.
fn whole<const N: usize>(row: &mut [u64]) -> &mut [u64; N] {
    row.try_into().expect("a row of this width")
}

/// Runs a call on rows, unless it is to be lent more than there is.
fn call(which: usize, n: &[u64], rows: &mut Rows) -> Option<u64> {
    let [text, events, head, records, draws, extras, sends, out, journal, told1, told3, told4, plants, recovering, picks, core, snapshot, logs, values, ids, tracker, told6, verdicts] =
        rows;
    let (head, records) = (whole(head), whole(records));
    let (told1, told3, told4) = (whole(told1), whole(told3), whole(told4));
    let (plants, core) = (whole(plants), whole(core));
    Some(match which {
        0 => {
            let text: Vec<u8> = front(text, n[0])?.iter().map(|&word| word as u8).collect();
            raw::parse_script(&text, front(events, n[1])?)
        }
        1 => raw::network_new(head, records, n[0], n[1], n[2], n[3], n[4]),
        2 => raw::network_set_options(head, records, n[0], n[1], n[2], n[3], n[4]),
        3 => {
            let (draws, extras) = (front(draws, n[6])?, front(extras, n[7])?);
            raw::network_send(
                head, records, n[0], n[1], n[2], n[3], n[4], n[5], draws, extras, told4,
            )
        }
        4 => raw::network_take_due(head, records, n[0], front(out, n[1])?, told1),
        5 => raw::network_pending(head, records, told1),
        6 => raw::network_in_flight(head, records, front(out, n[0])?, told1),
        7 => {
            let (sends, draws) = (front(sends, n[0])?, front(draws, n[1])?);
            let (extras, out) = (front(extras, n[2])?, front(out, n[4])?);
            raw::network_tick(head, records, sends, draws, extras, n[3], out, told3)
        }
        8 => raw::journal_mark(front(journal, n[0])?),
        9 => {
            let (draws, extras) = (front(draws, n[6])?, front(extras, n[7])?);
            let journal = front(journal, n[8])?;
            raw::journal_send(
                head, records, n[0], n[1], n[2], n[3], n[4], n[5], draws, extras, journal, told4,
            )
        }
        10 => {
            let (out, journal) = (front(out, n[1])?, front(journal, n[2])?);
            raw::journal_take_due(head, records, n[0], out, journal, told1)
        }
        11 => {
            let journal = front(journal, n[5])?;
            raw::journal_set_options(head, records, n[0], n[1], n[2], n[3], n[4], journal)
        }
        12 => raw::journal_rewind(head, records, n[0], front(journal, n[1])?),
        13 => raw::plants_new(n[0], plants),
        14 => raw::plants_apply(plants, n[0], n[1], n[2], front(draws, n[3])?, told1),
        15 => raw::plants_verdict(plants, n[0], n[1], n[2], told1),
        16 => {
            let (recovering, picks) = (front(recovering, n[0])?, front(picks, n[1])?);
            raw::plants_choose_core(plants, recovering, picks, n[2], core)
        }
        17 => raw::properties_fresh(n[0], front(tracker, n[1])?),
        18 => raw::properties_reboot(n[0], n[1], front(tracker, n[2])?),
        19 => {
            let (snapshot, logs) = (front(snapshot, n[1])?, front(logs, n[2])?);
            raw::properties_tick(n[0], snapshot, logs, front(tracker, n[3])?, told4)
        }
        20 => {
            let (snapshot, logs) = (front(snapshot, n[1])?, front(logs, n[2])?);
            let values: Vec<i64> = front(values, n[3])?.iter().map(|&w| w as i64).collect();
            let (ids, tracker) = (front(ids, n[4])?, front(tracker, n[5])?);
            raw::properties_end(n[0], snapshot, logs, &values, ids, tracker, told4)
        }
        21 => {
            let options = [n[0], n[1], n[2], n[3], n[4]];
            let (draws, extras) = (front(draws, n[7])?, front(extras, n[8])?);
            raw::fate(options, n[5], n[6], draws, extras, whole(told6))
        }
        _ => raw::plants_verdicts(plants, front(out, n[0])?, front(verdicts, n[1])?),
    })
}

/// The tally of a list, in lines.
fn tally(list: &[u8]) -> String {
    let mut replay = Replay::new(list);
    let mut broken = 0;
    while replay.at < list.len() && broken == 0 {
        if replay.step().is_none() {
            broken = 1;
        }
    }
    let mut lines = String::new();
    for (which, count) in &replay.counts {
        let name = CALLS[*which].0;
        lines += &format!("{name}={}\n", count.times);
        lines += &format!("{name} differing={}\n", count.differing);
        for (number, times) in &count.refusals {
            lines += &format!("{name} refusal {number}={times}\n");
        }
        for ((_, outcome), times) in &count.outcomes {
            lines += &format!("{name} {outcome}={times}\n");
        }
    }
    lines + &format!("broken={broken}\n")
}

#[test]
fn the_stored_sample() {
    let folder = Path::new(env!("CARGO_MANIFEST_DIR")).join("../../crates/samples");
    let read = |name: &str| {
        let file = folder.join(name);
        std::fs::read(&file).unwrap_or_else(|error| panic!("{}: {error}", file.display()))
    };
    let expected = String::from_utf8(read("stdout")).expect("a tally is text");
    let found = tally(&read("stdin"));
    if expected != found {
        let pairs = expected.lines().zip(found.lines());
        let first = pairs.enumerate().find(|(_, (a, b))| a != b);
        panic!("{found}is the tally; the first line that differs is {first:?}");
    }
}

#[test]
fn a_list_that_is_no_list() {
    // A step, a row, a place and a call that there are not, a byte over 255, a number too large, and lists that end too soon.
    let lists: [&[u8]; 10] = [
        &[4],
        &[0, 1, 23, 0, 1, 7],
        &[0, 1, 9, 1, 1, 7],
        &[0, 2, 9, 0, 1, 7],
        &[3, 23, 0],
        &[0, 1, 0, 0, 1, 128, 2],
        &[
            0, 1, 9, 0, 1, 255, 255, 255, 255, 255, 255, 255, 255, 255, 2,
        ],
        &[3, 13, 0],
        &[0, 1, 9, 0, 1],
        &[3, 8, 32, 129, 17],
    ];
    for list in lists {
        assert_eq!(tally(list), "broken=1\n", "{list:?}");
    }
}

#[test]
fn a_difference_in_every_row_that_a_call_writes() {
    // Fresh plants of 3: expected without its words, with its count alone, with another answer, and in full.
    let words = |words: &[u8]| [&[0, 0, 12, 0, 4][..], words, &[3, 13, 0, 3]].concat();
    assert_eq!(
        tally(&words(&[3, 1, 1, 1])),
        "plants_new=1\nplants_new differing=0\nplants_new done=1\nbroken=0\n"
    );
    for wrong in [[3, 1, 1, 0], [0, 1, 1, 1]] {
        assert!(tally(&words(&wrong)).contains("plants_new differing=1\n"));
    }
    assert!(tally(&[3, 13, 40, 2]).contains("plants_new refusal 40=1\n"));
    assert!(tally(&[3, 13, 41, 2]).contains("plants_new differing=1\n"));
}
