//! A network with a journal, whose calls can be undone.

use crate::network::{envelope, Envelope, Kind, MessageSummary, NetworkOptions, Origin, Sent};
use crate::raw::{head, record, RECORDS_WORDS, RECORD_WORDS};
use crate::words::mark;
use crate::{Refusal, Words};
use std::collections::HashMap;

/// A network whose sends, takes and changes of options are journaled, and can be undone back to the last mark. Bodies are
/// kept until a mark shows that no rewind can ask for them again.
pub struct JournaledNetwork<M> {
    words: Words,
    journal: Vec<u64>,
    bodies: HashMap<u64, M>,
    next: u64,
    /// What is taken is written here first, and so many records they were.
    out: Box<[u64; RECORDS_WORDS]>,
    taken: usize,
}

impl<M: Clone> JournaledNetwork<M> {
    /// A fresh network and a marked journal of so many words: 20, 21, 22, 32.
    pub fn new(options: &NetworkOptions, room: usize) -> Result<JournaledNetwork<M>, Refusal> {
        let words = Words::new(options)?;
        let mut journal = vec![0; room];
        mark(&mut journal)?;
        Ok(JournaledNetwork {
            words,
            journal,
            bodies: HashMap::new(),
            next: 0,
            out: Box::new([0; RECORDS_WORDS]),
            taken: 0,
        })
    }

    /// The network's words.
    pub fn words(&self) -> &Words {
        &self.words
    }

    /// The journal's words.
    pub fn journal(&self) -> &[u64] {
        &self.journal
    }

    /// The counters.
    pub fn summary(&self) -> MessageSummary {
        self.words.summary()
    }

    /// Forgets the calls held: no rewind goes past a mark. Bodies that are not in flight are dropped.
    pub fn mark(&mut self) -> Result<(), Refusal> {
        mark(&mut self.journal)?;
        let pending = self.words.head()[head::PENDING] as usize * RECORD_WORDS;
        let flying: Vec<u64> = self.words.records()[..pending]
            .chunks_exact(RECORD_WORDS)
            .map(|words| words[record::HANDLE])
            .collect();
        self.bodies.retain(|handle, _| flying.contains(handle));
        Ok(())
    }

    /// A send, journaled: the plain one's refusals, then 31, 32.
    #[allow(clippy::too_many_arguments)]
    pub fn send(
        &mut self,
        now: u64,
        from: Origin,
        to: u64,
        kind: Kind,
        body: M,
        draws: &[u64],
        extras: &[u64],
    ) -> Result<Sent, Refusal> {
        let (sort, origin) = from.words();
        let message = [now, sort, origin, to, kind as u64, self.next];
        let sent = self
            .words
            .send_journaled(message, draws, extras, &mut self.journal)?;
        if sent.copies() > 0 {
            self.bodies.insert(self.next, body);
            self.next += 1;
        }
        Ok(sent)
    }

    /// A take, journaled.
    pub fn take_due(&mut self, now: u64) -> Result<Vec<Envelope<M>>, Refusal> {
        self.taken = self
            .words
            .take_due_journaled(now, &mut self.out[..], &mut self.journal)?;
        Ok(self
            .taken()
            .chunks_exact(RECORD_WORDS)
            .map(|words| envelope(words, self.bodies[&words[record::HANDLE]].clone()))
            .collect())
    }

    /// The records of the last take that was accepted, as [`Network::taken`](crate::Network::taken) has them.
    pub fn taken(&self) -> &[u64] {
        &self.out[..self.taken * RECORD_WORDS]
    }

    /// A change of options, journaled.
    pub fn set_options(&mut self, options: &NetworkOptions) -> Result<(), Refusal> {
        self.words.set_options_journaled(options, &mut self.journal)
    }

    /// Undoes the last k sends, takes and changes of options: 33 if fewer are held since the last mark.
    pub fn rewind(&mut self, k: u64) -> Result<(), Refusal> {
        self.words.rewind(k, &mut self.journal)
    }
}
