//! The rows, and a call run on them through `bellmantle::raw`.

use crate::case::{Call, Case, Row, Words};
use bellmantle::raw::{self, CORE_WORDS, FATE_WORDS, HEAD_WORDS, PLANTS_WORDS, RECORDS_WORDS};

/// A row of each sort.
#[derive(Clone)]
pub struct Rows {
    text: Vec<u64>,
    events: Vec<u64>,
    head: Box<[u64; HEAD_WORDS]>,
    records: Box<[u64; RECORDS_WORDS]>,
    draws: Vec<u64>,
    extras: Vec<u64>,
    sends: Vec<u64>,
    out: Vec<u64>,
    journal: Vec<u64>,
    told1: [u64; 1],
    told3: [u64; 3],
    told4: [u64; 4],
    plants: [u64; PLANTS_WORDS],
    recovering: Vec<u64>,
    picks: Vec<u64>,
    core: [u64; CORE_WORDS],
    snapshot: Vec<u64>,
    logs: Vec<u64>,
    values: Vec<u64>,
    ids: Vec<u64>,
    tracker: Vec<u64>,
    told6: [u64; FATE_WORDS],
    verdicts: Vec<u64>,
}

impl Rows {
    /// All zeros.
    pub fn zeros() -> Rows {
        let row = |row: Row| vec![0; row.words()];
        Rows {
            text: row(Row::Text),
            events: row(Row::Events),
            head: Box::new([0; HEAD_WORDS]),
            records: Box::new([0; RECORDS_WORDS]),
            draws: row(Row::Draws),
            extras: row(Row::Extras),
            sends: row(Row::Sends),
            out: row(Row::Out),
            journal: row(Row::Journal),
            told1: [0; 1],
            told3: [0; 3],
            told4: [0; 4],
            plants: [0; PLANTS_WORDS],
            recovering: row(Row::Recovering),
            picks: row(Row::Picks),
            core: [0; CORE_WORDS],
            snapshot: row(Row::Snapshot),
            logs: row(Row::Logs),
            values: row(Row::Values),
            ids: row(Row::Ids),
            tracker: row(Row::Tracker),
            told6: [0; FATE_WORDS],
            verdicts: row(Row::Verdicts),
        }
    }

    pub fn row(&self, row: Row) -> &[u64] {
        match row {
            Row::Text => &self.text,
            Row::Events => &self.events,
            Row::Head => &self.head[..],
            Row::Records => &self.records[..],
            Row::Draws => &self.draws,
            Row::Extras => &self.extras,
            Row::Sends => &self.sends,
            Row::Out => &self.out,
            Row::Journal => &self.journal,
            Row::Told1 => &self.told1,
            Row::Told3 => &self.told3,
            Row::Told4 => &self.told4,
            Row::Plants => &self.plants,
            Row::Recovering => &self.recovering,
            Row::Picks => &self.picks,
            Row::Core => &self.core,
            Row::Snapshot => &self.snapshot,
            Row::Logs => &self.logs,
            Row::Values => &self.values,
            Row::Ids => &self.ids,
            Row::Tracker => &self.tracker,
            Row::Told6 => &self.told6,
            Row::Verdicts => &self.verdicts,
        }
    }

    pub fn row_mut(&mut self, row: Row) -> &mut [u64] {
        match row {
            Row::Text => &mut self.text,
            Row::Events => &mut self.events,
            Row::Head => &mut self.head[..],
            Row::Records => &mut self.records[..],
            Row::Draws => &mut self.draws,
            Row::Extras => &mut self.extras,
            Row::Sends => &mut self.sends,
            Row::Out => &mut self.out,
            Row::Journal => &mut self.journal,
            Row::Told1 => &mut self.told1,
            Row::Told3 => &mut self.told3,
            Row::Told4 => &mut self.told4,
            Row::Plants => &mut self.plants,
            Row::Recovering => &mut self.recovering,
            Row::Picks => &mut self.picks,
            Row::Core => &mut self.core,
            Row::Snapshot => &mut self.snapshot,
            Row::Logs => &mut self.logs,
            Row::Values => &mut self.values,
            Row::Ids => &mut self.ids,
            Row::Tracker => &mut self.tracker,
            Row::Told6 => &mut self.told6,
            Row::Verdicts => &mut self.verdicts,
        }
    }

    pub fn write(&mut self, words: &Words) {
        let Words { row, at, words } = words;
        self.row_mut(*row)[*at..at + words.len()].copy_from_slice(words);
    }

    /// Runs a call on these rows and answers the word that it returns.
    pub fn call(&mut self, case: &Case) -> u64 {
        let Rows {
            text,
            events,
            head,
            records,
            draws,
            extras,
            sends,
            out,
            journal,
            told1,
            told3,
            told4,
            plants,
            recovering,
            picks,
            core,
            snapshot,
            logs,
            values,
            ids,
            tracker,
            told6,
            verdicts,
        } = self;
        let n = |place: usize| case.numbers[place];
        let len = |place: usize| case.numbers[place] as usize;
        match case.call {
            Call::ParseScript => {
                let bytes = bytes(&text[..len(0)]);
                raw::parse_script(&bytes, &mut events[..len(1)])
            }
            Call::NetworkNew => raw::network_new(head, records, n(0), n(1), n(2), n(3), n(4)),
            Call::NetworkSetOptions => {
                raw::network_set_options(head, records, n(0), n(1), n(2), n(3), n(4))
            }
            Call::NetworkSend => raw::network_send(
                head,
                records,
                n(0),
                n(1),
                n(2),
                n(3),
                n(4),
                n(5),
                &draws[..len(6)],
                &extras[..len(7)],
                told4,
            ),
            Call::NetworkTakeDue => {
                raw::network_take_due(head, records, n(0), &mut out[..len(1)], told1)
            }
            Call::NetworkPending => raw::network_pending(head, records, told1),
            Call::NetworkInFlight => {
                raw::network_in_flight(head, records, &mut out[..len(0)], told1)
            }
            Call::NetworkTick => raw::network_tick(
                head,
                records,
                &sends[..len(0)],
                &draws[..len(1)],
                &extras[..len(2)],
                n(3),
                &mut out[..len(4)],
                told3,
            ),
            Call::JournalMark => raw::journal_mark(&mut journal[..len(0)]),
            Call::JournalSend => raw::journal_send(
                head,
                records,
                n(0),
                n(1),
                n(2),
                n(3),
                n(4),
                n(5),
                &draws[..len(6)],
                &extras[..len(7)],
                &mut journal[..len(8)],
                told4,
            ),
            Call::JournalTakeDue => raw::journal_take_due(
                head,
                records,
                n(0),
                &mut out[..len(1)],
                &mut journal[..len(2)],
                told1,
            ),
            Call::JournalSetOptions => {
                let journal = &mut journal[..len(5)];
                raw::journal_set_options(head, records, n(0), n(1), n(2), n(3), n(4), journal)
            }
            Call::JournalRewind => raw::journal_rewind(head, records, n(0), &mut journal[..len(1)]),
            Call::PlantsNew => raw::plants_new(n(0), plants),
            Call::PlantsApply => {
                raw::plants_apply(plants, n(0), n(1), n(2), &draws[..len(3)], told1)
            }
            Call::PlantsVerdict => raw::plants_verdict(plants, n(0), n(1), n(2), told1),
            Call::PlantsChooseCore => {
                raw::plants_choose_core(plants, &recovering[..len(0)], &picks[..len(1)], n(2), core)
            }
            Call::PropertiesFresh => raw::properties_fresh(n(0), &mut tracker[..len(1)]),
            Call::PropertiesReboot => raw::properties_reboot(n(0), n(1), &mut tracker[..len(2)]),
            Call::PropertiesTick => raw::properties_tick(
                n(0),
                &snapshot[..len(1)],
                &logs[..len(2)],
                &mut tracker[..len(3)],
                told4,
            ),
            Call::PropertiesEnd => {
                let values: Vec<i64> = values[..len(3)].iter().map(|&word| word as i64).collect();
                raw::properties_end(
                    n(0),
                    &snapshot[..len(1)],
                    &logs[..len(2)],
                    &values,
                    &ids[..len(4)],
                    &tracker[..len(5)],
                    told4,
                )
            }
            Call::Fate => raw::fate(
                [n(0), n(1), n(2), n(3), n(4)],
                n(5),
                n(6),
                &draws[..len(7)],
                &extras[..len(8)],
                told6,
            ),
            Call::PlantsVerdicts => {
                raw::plants_verdicts(plants, &out[..len(0)], &mut verdicts[..len(1)])
            }
        }
    }
}

fn bytes(words: &[u64]) -> Vec<u8> {
    let byte = |&word: &u64| u8::try_from(word).expect("a text is bytes");
    words.iter().map(byte).collect()
}
