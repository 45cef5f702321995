//! Messages that a network has accepted and not queued yet: each is decided, and kept with the words that it used.

use crate::network::{Fate, MessageSummary};
use crate::raw::MESSAGE_WORDS;
use crate::Words;

/// How many messages are posted at most. Lost ones are no copies, so that their number needs a limit of its own.
const MOST: u64 = 128;

/// Posted messages, in the order of sending, as a tick is lent them.
#[derive(Default)]
pub(crate) struct Posted {
    sends: Vec<u64>,
    draws: Vec<u64>,
    extras: Vec<u64>,
    /// How many copies they are, and when the first of these is due.
    copies: usize,
    first: Option<u64>,
    /// What they add to the counters.
    counts: MessageSummary,
}

impl Posted {
    pub(crate) fn is_empty(&self) -> bool {
        self.counts.sent == 0
    }

    pub(crate) fn is_full(&self) -> bool {
        self.counts.sent == MOST
    }

    /// How many messages they are.
    pub(crate) fn count(&self) -> u64 {
        self.counts.sent
    }

    /// How many copies they are.
    pub(crate) fn copies(&self) -> usize {
        self.copies
    }

    /// The tick at which the first of the copies is due.
    pub(crate) fn next_due(&self) -> Option<u64> {
        self.first
    }

    /// The counters of a network, with these messages counted as sent.
    pub(crate) fn counted(&self, queued: MessageSummary) -> MessageSummary {
        MessageSummary {
            sent: queued.sent + self.counts.sent,
            delivered: queued.delivered,
            lost: queued.lost + self.counts.lost,
            replayed: queued.replayed + self.counts.replayed,
            delayed: queued.delayed + self.counts.delayed,
        }
    }

    /// Adds a message, its fate, and the words lent to it, of which those used are kept.
    pub(crate) fn add(
        &mut self,
        message: [u64; MESSAGE_WORDS],
        fate: &Fate,
        draws: &[u64],
        extras: &[u64],
    ) {
        let extras = &extras[..fate.extras];
        self.sends.extend_from_slice(&message);
        self.draws.extend_from_slice(&draws[..fate.draws]);
        self.extras.extend_from_slice(extras);
        for due in fate.copy.into_iter().chain(fate.original) {
            self.copies += 1;
            self.first = Some(self.first.map_or(due, |first| first.min(due)));
        }
        self.counts.sent += 1;
        self.counts.lost += u64::from(fate.original.is_none());
        self.counts.replayed += u64::from(fate.copy.is_some());
        self.counts.delayed += extras.iter().filter(|&&extra| extra > 0).count() as u64;
    }

    /// What a tick is lent: the messages, their draws and their extras.
    pub(crate) fn lists(&self) -> (&[u64], &[u64], &[u64]) {
        (&self.sends, &self.draws, &self.extras)
    }

    /// Sends them to a network one after the other, each with what is left of the draws and the extras.
    pub(crate) fn send_to(&self, words: &mut Words) {
        let (mut draws, mut extras) = (&self.draws[..], &self.extras[..]);
        for message in self.sends.chunks_exact(MESSAGE_WORDS) {
            let message = message.try_into().expect("a message's words");
            let sent = words.send(message, draws, extras);
            let sent = sent.expect("what is decided and has room is not refused");
            draws = &draws[sent.draws..];
            extras = &extras[sent.extras..];
        }
    }

    /// Forgets them, once they are queued.
    pub(crate) fn clear(&mut self) {
        self.sends.clear();
        self.draws.clear();
        self.extras.clear();
        self.copies = 0;
        self.first = None;
        self.counts = MessageSummary::default();
    }
}
