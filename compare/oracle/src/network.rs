//! The network, as the Rust's simulator has it, told in words. A message of each kind has a body with one
//! number in it, by which bodies are told apart.

use crate::network_read::{message_kind, Envelope, Network, Origin};
use crate::simulator::state_machine::{Op, OpKind};
use rand::SeedableRng;
use rand_chacha::ChaCha8Rng;
use vsr_rs::Message;

pub use crate::network_read::NetworkOptions;

/// Due, number, sent tick, origin's sort and id, to, kind, handle.
pub type Record = [u64; 8];

/// A message to be sent.
#[derive(Clone, Copy, Debug)]
pub struct Letter {
    pub now: u64,
    pub sort: u64,
    pub origin: u64,
    pub to: u64,
    pub kind: u64,
    pub handle: u64,
}

/// A Rust network and its generator.
pub struct Judge {
    network: Network,
    generator: ChaCha8Rng,
}

const KINDS: [&str; 11] = [
    "Request",
    "Prepare",
    "PrepareOk",
    "Commit",
    "GetState",
    "NewState",
    "StartViewChange",
    "DoViewChange",
    "StartView",
    "Recovery",
    "RecoveryResponse",
];

impl Judge {
    pub fn new(options: NetworkOptions) -> Judge {
        Judge {
            network: Network::new(options),
            generator: ChaCha8Rng::from_seed([0; 32]),
        }
    }

    pub fn copy(&self) -> Judge {
        Judge {
            network: self.network.copy(),
            generator: ChaCha8Rng::from_seed([0; 32]),
        }
    }

    pub fn options(&self) -> &NetworkOptions {
        self.network.options()
    }

    pub fn set_options(&mut self, options: NetworkOptions) {
        self.network.set_options(options);
    }

    pub fn pending(&self) -> usize {
        self.network.pending()
    }

    pub fn seq(&self) -> u64 {
        self.network.seq()
    }

    /// Sent, delivered, lost, replayed, delayed.
    pub fn counters(&self) -> [u64; 5] {
        let counts = &self.network.summary;
        [
            counts.sent as u64,
            counts.delivered as u64,
            counts.lost as u64,
            counts.replayed as u64,
            counts.delayed as u64,
        ]
    }

    pub fn set_sent_and_lost(&mut self, sent: u64, lost: u64) {
        self.network.summary.sent = sent as usize;
        self.network.summary.lost = lost as usize;
    }

    /// What is in flight, in delivery order.
    pub fn records(&self) -> Vec<Record> {
        let numbers = self.network.numbered().map(|(number, _)| number);
        numbers
            .zip(self.network.in_flight())
            .map(|(number, envelope)| record(number, envelope))
            .collect()
    }

    /// Sends with lent words, and tells how many of them were drawn.
    pub fn send(&mut self, letter: Letter, words: &[u64]) -> usize {
        self.generator.lend(words);
        let from = if letter.sort == 0 {
            Origin::Replica(letter.origin as usize)
        } else {
            Origin::Client(letter.origin as usize)
        };
        let message = message(letter.kind, letter.handle);
        let to = letter.to as usize;
        self.network
            .send(letter.now, from, to, message, &mut self.generator);
        self.generator.used()
    }

    /// What is due, by the Rust's take_due.
    pub fn take_due(&mut self, now: u64) -> Vec<Record> {
        let numbers = self.numbers();
        let taken = self.network.take_due(now);
        records(&numbers, &taken)
    }

    /// What is due by the rules: at the last tick, at which take_due overflows, all that is in flight.
    pub fn take(&mut self, now: u64) -> Vec<Record> {
        if now < u64::MAX {
            return self.take_due(now);
        }
        let numbers = self.numbers();
        let taken = self.network.take_all();
        records(&numbers, &taken)
    }

    fn numbers(&self) -> Vec<u64> {
        self.network.numbered().map(|(number, _)| number).collect()
    }
}

/// Envelopes from the front of a queue, with the numbers that stood there.
fn records(numbers: &[u64], taken: &[Envelope]) -> Vec<Record> {
    let numbered = numbers.iter().zip(taken);
    numbered
        .map(|(&number, envelope)| record(number, envelope))
        .collect()
}

fn record(number: u64, envelope: &Envelope) -> Record {
    let (sort, origin) = match envelope.from {
        Origin::Replica(id) => (0, id as u64),
        Origin::Client(id) => (1, id as u64),
    };
    let name = message_kind(&envelope.message);
    let kind = KINDS.iter().position(|&kind| kind == name);
    [
        envelope.due_at,
        number,
        envelope.sent_at,
        sort,
        origin,
        envelope.to as u64,
        kind.expect("every kind is named") as u64,
        handle(&envelope.message),
    ]
}

fn message(kind: u64, handle: u64) -> Message<Op> {
    let body = handle as usize;
    match kind {
        0 => Message::Request {
            client_id: 0,
            request_number: 0,
            op: op(handle),
        },
        1 => Message::Prepare {
            view_number: 0,
            op_number: 0,
            client_id: 0,
            request_number: 0,
            op: op(handle),
            commit_number: 0,
        },
        2 => Message::PrepareOk {
            view_number: 0,
            op_number: 0,
            replica_id: body,
        },
        3 => Message::Commit {
            view_number: 0,
            commit_number: body,
        },
        4 => Message::GetState {
            replica_id: body,
            view_number: 0,
            op_number: 0,
        },
        5 => Message::NewState {
            view_number: 0,
            log: Vec::new(),
            op_number_start: 0,
            op_number_end: 0,
            commit_number: body,
        },
        6 => Message::StartViewChange {
            view_number: 0,
            replica_id: body,
        },
        7 => Message::DoViewChange {
            view_number: 0,
            replica_id: body,
            last_normal_view: 0,
            log: Vec::new(),
            op_number: 0,
            commit_number: 0,
        },
        8 => Message::StartView {
            view_number: 0,
            log: Vec::new(),
            op_number: 0,
            commit_number: body,
        },
        9 => Message::Recovery {
            replica_id: 0,
            nonce: handle,
            view_number: 0,
        },
        _ => Message::RecoveryResponse {
            view_number: 0,
            nonce: handle,
            replica_id: 0,
            state: None,
        },
    }
}

fn op(id: u64) -> Op {
    Op {
        id,
        kind: OpKind::Add(0),
    }
}

fn handle(message: &Message<Op>) -> u64 {
    match message {
        Message::Request { op, .. } | Message::Prepare { op, .. } => op.id,
        Message::PrepareOk { replica_id, .. }
        | Message::GetState { replica_id, .. }
        | Message::StartViewChange { replica_id, .. }
        | Message::DoViewChange { replica_id, .. } => *replica_id as u64,
        Message::Commit { commit_number, .. }
        | Message::NewState { commit_number, .. }
        | Message::StartView { commit_number, .. } => *commit_number as u64,
        Message::Recovery { nonce, .. } | Message::RecoveryResponse { nonce, .. } => *nonce,
    }
}
