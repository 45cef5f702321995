//! Random runs: a cluster that grows, recovers and reboots. Before a good snapshot comes, now and then, one that is
//! broken in one place, or a call that our rules refuse. The Rust judges each.

use crate::cluster::{Entry, Plant, VALUES};
use crate::judge::{Judge, Verdict, PASS};
use crate::list::{Lent, List, LIST_ROOM, LOG_ROOM, PLANT_ROOM, SMALL_ROOM, TRACKER_ROOM};
use calls::case::Call;
use calls::draws::Draws;
use std::collections::BTreeSet;

const ENTRIES: usize = 128;

/// More than one step can take: 15 logs of 128 entries, some of them laid three times.
const STEP_ROOM: usize = 130_000;

pub struct Run<'a> {
    draws: &'a mut Draws,
    list: &'a mut List,
    judge: Judge,
    n: usize,
    plants: Vec<Plant>,
    /// What is agreed on: every good log is a beginning of it, with a tail of its own.
    truth: Vec<Entry>,
    next_id: u64,
    /// How many entries are appended at a time.
    stride: usize,
    limit: usize,
}

/// One run at the end of a list, of which at most `limit` is used.
pub fn run(draws: &mut Draws, list: &mut List, limit: usize, small: bool) {
    let n = match draws.below(if small { 12 } else { 8 }) {
        0 => draws.between(3, 15),
        1 | 2 => draws.between(5, 8),
        _ => draws.between(3, 5),
    };
    let stride = match draws.below(if small { 200 } else { 30 }) {
        0 => 128,
        1 | 2 => 24,
        _ => 3,
    };
    let steps = draws.between(4, 24);
    let mut run = Run {
        draws,
        list,
        judge: Judge::new(),
        n,
        plants: vec![Plant::new(); n],
        truth: Vec::new(),
        next_id: 0,
        stride,
        limit,
    };
    run.fresh();
    for _ in 0..steps {
        if run.list.length >= run.limit {
            return;
        }
        run.step();
    }
}

pub fn limit() -> usize {
    LIST_ROOM - STEP_ROOM * 2
}

impl Run<'_> {
    fn fresh(&mut self) {
        if self.draws.once_in(8) {
            self.refused(Call::PropertiesFresh);
        }
        let lent = Lent::for_plants(self.n);
        self.list.lend(lent);
        self.list.tracker[..lent.tracker].fill(0);
        self.list.tracker[0] = self.n as u64;
        self.list.call(Call::PropertiesFresh, 0, PASS);
    }

    fn step(&mut self) {
        match self.draws.below(12) {
            0 => self.reboot(),
            1 => self.end(),
            2 => {
                for _ in 0..3 {
                    let call = [
                        Call::PropertiesTick,
                        Call::PropertiesEnd,
                        Call::PropertiesReboot,
                    ][self.draws.below(3)];
                    self.refused(call);
                }
            }
            _ => self.tick(),
        }
    }

    fn tick(&mut self) {
        let mut next = self.plants.clone();
        self.grow(&mut next);
        let mut broken = 0;
        while self.draws.once_in(2) && broken < 3 {
            let mut wrong = next.clone();
            self.damage(&mut wrong);
            self.ticked(&wrong);
            broken += 1;
        }
        if self.draws.once_in(6) {
            self.decoys(&next);
        }
        if self.ticked(&next) == PASS {
            self.plants = next;
        }
    }

    /// A tick call in which both sides are given a snapshot.
    fn ticked(&mut self, plants: &[Plant]) -> Verdict {
        self.list.lend(Lent::for_plants(self.n));
        self.list.snapshot(plants);
        let before = self.judge.last_commits(self.n);
        let verdict = self.judge.tick(plants);
        if verdict == PASS {
            self.remember(plants, &before);
        }
        self.list.call(Call::PropertiesTick, 0, verdict);
        verdict
    }

    /// The tracker's words after a pass: what the Rust remembers, laid as the rules say. The Rust keeps a plant's
    /// ids as a set; in the words each stands at its entry's index.
    fn remember(&mut self, plants: &[Plant], before: &[usize]) {
        let n = self.n;
        let last = self.judge.last_commits(n);
        let canonical = self.judge.canonical();
        let words = &mut self.list.tracker;
        words[1] = canonical.len() as u64;
        for (id, &commit) in last.iter().enumerate() {
            words[2 + id] = commit as u64;
        }
        for (index, entry) in canonical.iter().enumerate() {
            let at = 2 + n + 4 * index;
            words[at..at + 4].copy_from_slice(entry);
        }
        for (id, plant) in plants.iter().enumerate() {
            let ids = 514 + n + 128 * id;
            for index in before[id]..last[id] {
                words[ids + index] = plant.log[index][2];
            }
            let laid: BTreeSet<u64> = words[ids..ids + last[id]].iter().copied().collect();
            assert_eq!(laid, self.judge.seen(id), "the ids seen");
        }
    }

    fn entry(&mut self) -> Entry {
        self.next_id += 1;
        let id = match self.draws.below(8) {
            0 => u64::MAX - self.next_id,
            _ => self.next_id,
        };
        let body = match self.draws.below(4) {
            0 => self.draws.word(),
            _ => self.draws.below(3) as u64,
        };
        let client = self.draws.below(3) as u64;
        [client, self.draws.below(4) as u64, id, body]
    }

    /// The next good snapshot, mostly one that passes.
    fn grow(&mut self, next: &mut [Plant]) {
        for _ in 0..self.draws.between(0, self.stride) {
            if self.truth.len() < ENTRIES {
                let entry = self.entry();
                self.truth.push(entry);
            }
        }
        for plant in next.iter_mut() {
            if self.draws.once_in(12) {
                plant.recovering = 1 - plant.recovering;
            }
            if self.draws.below(4) != 0 {
                let length = self.draws.between(plant.commit as usize, self.truth.len());
                let length = if self.draws.once_in(3) {
                    length
                } else {
                    self.truth.len()
                };
                plant.log = self.truth[..length].to_vec();
            }
            if self.draws.once_in(10) && plant.log.len() < ENTRIES {
                let tail = self.entry();
                plant.log.push(tail);
            }
            plant.op = plant.log.len() as u64;
        }
        let safe = self.safe(next);
        for plant in next.iter_mut() {
            let agreed = agreed(&plant.log, &self.truth).min(safe);
            if plant.commit as usize <= agreed && !self.draws.once_in(3) {
                plant.commit = self.draws.between(plant.commit as usize, agreed) as u64;
                if self.draws.once_in(2) {
                    plant.commit = agreed as u64;
                }
            }
        }
    }

    /// How much of the truth enough plants hold.
    fn safe(&self, plants: &[Plant]) -> usize {
        let mut held: Vec<usize> = plants
            .iter()
            .filter(|plant| plant.recovering == 0)
            .map(|plant| agreed(&plant.log, &self.truth))
            .collect();
        held.sort_unstable_by(|a, b| b.cmp(a));
        let needed = (held.len() + 1).saturating_sub(self.n / 2 + 1);
        match needed {
            0 => self.truth.len(),
            _ => held[needed - 1],
        }
    }

    /// Breaks a snapshot in one place.
    fn damage(&mut self, plants: &mut [Plant]) {
        let id = self.draws.below(self.n);
        let last = self.judge.last_commits(self.n);
        match self.draws.below(19) {
            0 => plants[id].op = self.near(plants[id].op),
            1 => plants[id].commit = plants[id].op + 1 + self.draws.below(2) as u64,
            2 => plants[id].commit = self.draws.word(),
            3 => {
                let id = (0..self.n).find(|&id| last[id] > 0).unwrap_or(id);
                plants[id].commit = self.draws.below(last[id].max(1)) as u64;
            }
            4 => {
                plants[id] = Plant::new();
            }
            5 | 6 => self.other_word(&mut plants[id], last[id]),
            7 | 8 | 14 => self.repeated_id(plants, &last),
            9 => self.other_truth(plants, &last),
            10 | 15 | 16 => {
                // Logs cut back to what is committed, so that copies are missing.
                let keep = self.draws.below(self.n);
                for (other, plant) in plants.iter_mut().enumerate() {
                    if other != keep {
                        plant.commit = last[other] as u64;
                        plant.log.truncate(last[other]);
                        plant.op = plant.log.len() as u64;
                    } else {
                        plant.commit = plant.log.len() as u64;
                    }
                }
            }
            11 | 17 => plants[id].commit = plants[id].log.len() as u64,
            12 => {
                for plant in plants.iter_mut() {
                    plant.recovering = self.draws.below(2) as u64;
                }
            }
            _ => {
                let length = self.draws.between(plants[id].commit.min(128) as usize, 128);
                plants[id].log.truncate(length);
                plants[id].op = plants[id].log.len() as u64;
            }
        }
    }

    fn near(&mut self, word: u64) -> u64 {
        match self.draws.below(3) {
            0 => word + 1,
            1 => word.wrapping_sub(1),
            _ => self.draws.word(),
        }
    }

    /// Another word in one entry, mostly one newly committed.
    fn other_word(&mut self, plant: &mut Plant, last: usize) {
        let commit = plant.commit as usize;
        let (from, to) = if last < commit && !self.draws.once_in(6) {
            (last, commit)
        } else {
            (0, plant.log.len())
        };
        if from < to {
            let index = self.draws.between(from, to - 1);
            let place = self.draws.below(4);
            plant.log[index][place] ^= 1 << self.draws.below(64);
        }
    }

    /// An id of an earlier entry, in every log that holds the later one.
    fn repeated_id(&mut self, plants: &mut [Plant], last: &[usize]) {
        let longest = plants.iter().map(|plant| plant.commit as usize).max();
        let longest = longest.unwrap_or(0);
        let known = last.iter().copied().max().unwrap_or(0);
        if longest < 2 {
            return;
        }
        let from = if known < longest { known.max(1) } else { 1 };
        let index = self.draws.between(from, longest - 1);
        let id = self.truth[self.draws.below(index)][2];
        for plant in plants.iter_mut() {
            if let Some(entry) = plant.log.get_mut(index) {
                entry[2] = id;
            }
        }
    }

    /// Another entry, in some of the logs.
    fn other_truth(&mut self, plants: &mut [Plant], last: &[usize]) {
        let longest = plants.iter().map(|plant| plant.commit as usize).max();
        let longest = longest.unwrap_or(0);
        if longest == 0 {
            return;
        }
        let known = last.iter().copied().max().unwrap_or(0).min(longest - 1);
        let index = self.draws.between(known, longest - 1);
        let entry = self.entry();
        for plant in plants.iter_mut() {
            if index < plant.log.len() && self.draws.once_in(2) {
                plant.log[index] = entry;
            }
        }
    }

    /// The truth past the end of logs, where nobody may look.
    fn decoys(&mut self, plants: &[Plant]) {
        for (id, plant) in plants.iter().enumerate() {
            for index in plant.log.len()..self.truth.len().min(plant.log.len() + 3) {
                self.list.entry(id, index, &self.truth[index].clone());
            }
        }
    }

    fn reboot(&mut self) {
        let id = self.draws.below(self.n);
        self.list.lend(Lent::for_plants(self.n));
        self.judge.reboot(id);
        assert_eq!(self.judge.last_commits(self.n)[id], 0);
        assert!(self.judge.seen(id).is_empty());
        self.list.tracker[2 + id] = 0;
        self.list.call(Call::PropertiesReboot, id as u64, PASS);
        if !self.draws.once_in(5) {
            self.plants[id] = Plant::new();
            self.plants[id].recovering = 1;
        }
    }

    fn end(&mut self) {
        let core = self.some_core();
        let mut plants = self.plants.clone();
        for &id in &core {
            let plant = &mut plants[id as usize];
            plant.log = self.truth.clone();
            plant.op = plant.log.len() as u64;
            plant.commit = plant.op;
            plant.value = 3;
        }
        for _ in 0..self.draws.between(1, 4) {
            let mut wrong = plants.clone();
            let id = core[self.draws.below(core.len())] as usize;
            self.damage_end(&mut wrong[id]);
            self.ended(&wrong, &core);
        }
        self.ended(&plants, &core);
    }

    fn damage_end(&mut self, plant: &mut Plant) {
        match self.draws.below(5) {
            0 => {
                plant.log.pop();
                if self.draws.once_in(2) {
                    plant.commit = plant.log.len() as u64;
                }
            }
            1 => {
                if !plant.log.is_empty() {
                    let index = self.draws.below(plant.log.len());
                    plant.log[index][self.draws.below(4)] ^= 1 << self.draws.below(64);
                }
            }
            2 => plant.commit = self.near(plant.commit),
            3 => plant.value = self.draws.below(VALUES.len()),
            _ => plant.op = self.near(plant.op),
        }
    }

    fn ended(&mut self, plants: &[Plant], core: &[u64]) {
        let mut lent = Lent::for_plants(self.n);
        lent.core = core.len();
        self.list.lend(lent);
        self.list.snapshot(plants);
        self.list.values(plants);
        self.list.core(core);
        let verdict = self.judge.end(plants, core);
        self.list.call(Call::PropertiesEnd, 0, verdict);
    }

    /// Rising ids, one at least.
    fn some_core(&mut self) -> Vec<u64> {
        let always = self.draws.below(self.n);
        (0..self.n)
            .filter(|&id| id == always || self.draws.once_in(2))
            .map(|id| id as u64)
            .collect()
    }

    /// A call with words or numbers that our rules refuse. The Rust has no such answers: they are the rules' own.
    fn refused(&mut self, call: Call) {
        let n = self.n;
        let mut lent = Lent::for_plants(n);
        let mut id = self.draws.below(n) as u64;
        let mut core = self.some_core();
        let kept = self.list.tracker.clone();
        self.list.snapshot(&self.plants);
        self.list.values(&self.plants);
        let faults: &[usize] = match call {
            Call::PropertiesTick => &[0, 2, 3, 6, 7, 8, 9],
            Call::PropertiesEnd => &[0, 2, 3, 4, 5, 5, 5, 6, 7, 8, 9],
            Call::PropertiesFresh => &[0, 6],
            _ => &[0, 1, 1, 6, 8, 9],
        };
        for _ in 0..self.draws.between(1, 2) {
            match faults[self.draws.below(faults.len())] {
                0 => lent.n = [0, 2, 16, u64::MAX][self.draws.below(4)],
                1 => id = [n as u64, n as u64 + 1, u64::MAX][self.draws.below(3)],
                2 => lent.plants = other_length(self.draws, lent.plants, PLANT_ROOM),
                3 => lent.logs = other_length(self.draws, lent.logs, LOG_ROOM),
                4 => lent.values = other_length(self.draws, lent.values, SMALL_ROOM),
                5 => core = self.bad_core(core),
                6 => lent.tracker = other_length(self.draws, lent.tracker, TRACKER_ROOM),
                7 => {
                    let plant = self.draws.below(n);
                    let mut words = self.plants[plant].words();
                    match self.draws.below(2) {
                        0 => words[0] = [2, u64::MAX][self.draws.below(2)],
                        _ => words[3] = [129, u64::MAX][self.draws.below(2)],
                    }
                    self.list.plant_words(plant, words);
                }
                8 => {
                    let word = [129, u64::MAX, 128][self.draws.below(3)];
                    self.list.tracker_word(1, word);
                }
                _ => {
                    let place = self.draws.below(n);
                    let canonical = self.list.tracker[1];
                    match self.draws.below(3) {
                        0 => self.list.tracker_word(0, n as u64 + 1),
                        _ => self
                            .list
                            .tracker_word(2 + place, canonical.saturating_add(1)),
                    }
                }
            }
        }
        lent.core = core.len();
        self.list.lend(lent);
        self.list.core(&core);
        if let Some(code) = self.refusal(call, lent, id, &core) {
            self.list.call(call, id, Verdict { code, ..PASS });
        }
        for (at, &word) in kept.iter().enumerate() {
            self.list.tracker_word(at, word);
        }
    }

    fn bad_core(&mut self, mut core: Vec<u64>) -> Vec<u64> {
        if core.is_empty() || core.len() == SMALL_ROOM {
            return core;
        }
        match self.draws.below(4) {
            0 => core.clear(),
            1 => core.insert(0, core[0]),
            2 => *core.last_mut().expect("there is one") = self.n as u64,
            _ => core.insert(0, u64::MAX),
        }
        core
    }

    /// RULES, "Properties": the refusal that comes first.
    fn refusal(&self, call: Call, lent: Lent, id: u64, core: &[u64]) -> Option<u64> {
        if !(3..=15).contains(&lent.n) {
            return Some(40);
        }
        let n = lent.n as usize;
        if call == Call::PropertiesReboot && id >= lent.n {
            return Some(41);
        }
        let snapshot = lent.plants != 4 * n
            || lent.logs != 512 * n
            || (0..n).any(|r| self.list.plants[4 * r] > 1 || self.list.plants[4 * r + 3] > 128);
        let rising = core.windows(2).all(|pair| pair[0] < pair[1]);
        let end =
            lent.values != n || core.is_empty() || !rising || core.iter().any(|&id| id >= lent.n);
        let asked = match call {
            Call::PropertiesTick => snapshot,
            Call::PropertiesEnd => snapshot || end,
            _ => false,
        };
        if asked {
            return Some(60);
        }
        let tracker = &self.list.tracker;
        let held = call != Call::PropertiesFresh
            && (tracker[0] != lent.n
                || tracker[1] > 128
                || (0..n).any(|r| tracker[2 + r] > tracker[1]));
        (lent.tracker != 514 + 129 * n || held).then_some(61)
    }
}

fn other_length(draws: &mut Draws, length: usize, room: usize) -> usize {
    match draws.below(4) {
        0 => 0,
        1 => length.saturating_sub(1),
        2 => (length + 1).min(room),
        _ => draws.below(room),
    }
}

/// How many entries a log has in common with the truth.
fn agreed(log: &[Entry], truth: &[Entry]) -> usize {
    log.iter().zip(truth).take_while(|(a, b)| a == b).count()
}
