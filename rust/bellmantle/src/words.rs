//! A network's words, lent to the library in place, with no bodies beside them.

use crate::network::{MessageSummary, NetworkOptions, Sent};
use crate::raw::{self, head, HEAD_WORDS, MESSAGE_WORDS, RECORDS_WORDS};
use crate::Refusal;

/// A network as the library has it: a head of 12 words and 1,024 of records. A message body is a handle, which the caller
/// keeps. [`crate::Network`] is one with bodies.
#[derive(Clone)]
pub struct Words {
    pub(crate) head: [u64; HEAD_WORDS],
    pub(crate) records: Box<[u64; RECORDS_WORDS]>,
}

impl Words {
    /// A fresh network: 20, 21, 22.
    pub fn new(options: &NetworkOptions) -> Result<Words, Refusal> {
        let mut words = Words {
            head: [0; HEAD_WORDS],
            records: Box::new([0; RECORDS_WORDS]),
        };
        let (loss, replay, min, mean, flag) = options.words();
        Refusal::check(raw::network_new(
            &mut words.head,
            &mut words.records,
            loss,
            replay,
            min,
            mean,
            flag,
        ))?;
        Ok(words)
    }

    /// Words that come from elsewhere: the next call tests them (23).
    pub fn from_parts(head: [u64; HEAD_WORDS], records: Box<[u64; RECORDS_WORDS]>) -> Words {
        Words { head, records }
    }

    /// The head's words, in the order of include/bellmantle.h.
    pub fn head(&self) -> &[u64; HEAD_WORDS] {
        &self.head
    }

    /// The records' words.
    pub fn records(&self) -> &[u64; RECORDS_WORDS] {
        &self.records
    }

    /// The counters.
    pub fn summary(&self) -> MessageSummary {
        MessageSummary {
            sent: self.head[head::SENT],
            delivered: self.head[head::DELIVERED],
            lost: self.head[head::LOST],
            replayed: self.head[head::REPLAYED],
            delayed: self.head[head::DELAYED],
        }
    }

    /// Other options: 23, 20, 21, 22.
    pub fn set_options(&mut self, options: &NetworkOptions) -> Result<(), Refusal> {
        let (loss, replay, min, mean, flag) = options.words();
        Refusal::check(raw::network_set_options(
            &mut self.head,
            &self.records,
            loss,
            replay,
            min,
            mean,
            flag,
        ))
    }

    /// A message sent at a tick: now, the sender's sort and id, the receiver, kind and handle. 23 to 29.
    pub fn send(
        &mut self,
        message: [u64; MESSAGE_WORDS],
        draws: &[u64],
        extras: &[u64],
    ) -> Result<Sent, Refusal> {
        let [now, sort, origin, to, kind, handle] = message;
        let mut told = [0; 4];
        Refusal::check(raw::network_send(
            &mut self.head,
            &mut self.records,
            now,
            sort,
            origin,
            to,
            kind,
            handle,
            draws,
            extras,
            &mut told,
        ))?;
        Ok(Sent::told(told))
    }

    /// Takes the messages due at a tick to the front of the output, eight words each; how many they are. 23, 30.
    pub fn take_due(&mut self, now: u64, out: &mut [u64]) -> Result<usize, Refusal> {
        let mut told = [0; 1];
        Refusal::check(raw::network_take_due(
            &mut self.head,
            &mut self.records,
            now,
            out,
            &mut told,
        ))?;
        Ok(told[0] as usize)
    }

    /// How many messages are in flight: 23.
    pub fn pending(&self) -> Result<usize, Refusal> {
        let mut told = [0; 1];
        Refusal::check(raw::network_pending(&self.head, &self.records, &mut told))?;
        Ok(told[0] as usize)
    }

    /// The messages in flight, in the order of delivery, to the front of the output; how many they are. 23, 30.
    pub fn in_flight(&self, out: &mut [u64]) -> Result<usize, Refusal> {
        let mut told = [0; 1];
        Refusal::check(raw::network_in_flight(
            &self.head,
            &self.records,
            out,
            &mut told,
        ))?;
        Ok(told[0] as usize)
    }

    /// A tick: the messages of `sends`, six words each, one after the other, and then a take. The draws used, the extras used
    /// and the records taken; or the first refusal with its call's place, and nothing is changed.
    pub fn tick(
        &mut self,
        sends: &[u64],
        draws: &[u64],
        extras: &[u64],
        now: u64,
        out: &mut [u64],
    ) -> Result<[usize; 3], (Refusal, usize)> {
        let mut told = [0; 3];
        let packed = raw::network_tick(
            &mut self.head,
            &mut self.records,
            sends,
            draws,
            extras,
            now,
            out,
            &mut told,
        );
        match packed {
            0 => Ok(told.map(|word| word as usize)),
            packed => Err((Refusal::of(packed >> 32), packed as u32 as usize)),
        }
    }

    /// The journaled send: the plain one's refusals, then 31, 32.
    pub fn send_journaled(
        &mut self,
        message: [u64; MESSAGE_WORDS],
        draws: &[u64],
        extras: &[u64],
        journal: &mut [u64],
    ) -> Result<Sent, Refusal> {
        let [now, sort, origin, to, kind, handle] = message;
        let mut told = [0; 4];
        Refusal::check(raw::journal_send(
            &mut self.head,
            &mut self.records,
            now,
            sort,
            origin,
            to,
            kind,
            handle,
            draws,
            extras,
            journal,
            &mut told,
        ))?;
        Ok(Sent::told(told))
    }

    /// The journaled take.
    pub fn take_due_journaled(
        &mut self,
        now: u64,
        out: &mut [u64],
        journal: &mut [u64],
    ) -> Result<usize, Refusal> {
        let mut told = [0; 1];
        Refusal::check(raw::journal_take_due(
            &mut self.head,
            &mut self.records,
            now,
            out,
            journal,
            &mut told,
        ))?;
        Ok(told[0] as usize)
    }

    /// The journaled change of options.
    pub fn set_options_journaled(
        &mut self,
        options: &NetworkOptions,
        journal: &mut [u64],
    ) -> Result<(), Refusal> {
        let (loss, replay, min, mean, flag) = options.words();
        Refusal::check(raw::journal_set_options(
            &mut self.head,
            &self.records,
            loss,
            replay,
            min,
            mean,
            flag,
            journal,
        ))
    }

    /// Goes back over the last k calls held: 23, 31, 33.
    pub fn rewind(&mut self, k: u64, journal: &mut [u64]) -> Result<(), Refusal> {
        Refusal::check(raw::journal_rewind(
            &mut self.head,
            &mut self.records,
            k,
            journal,
        ))
    }
}

/// Forgets the calls that a journal holds: 32.
pub(crate) fn mark(journal: &mut [u64]) -> Result<(), Refusal> {
    Refusal::check(raw::journal_mark(journal))
}
