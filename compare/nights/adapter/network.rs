//! The simulator's network.rs over the proved library: the same names and the same lines of the log, so that the simulator
//! does not know the difference. The generator stays here, and so do the bodies, which the crate keeps. The crate decides what
//! is sent at once, and queues it with the next take that has something due.

pub use crate::original::network::{
    message_kind, Envelope, MessageSummary, NetworkOptions, Origin, ReplicaId,
};

use crate::limits::refused;
use crate::extended;
use crate::state_machine::Op;
use bellmantle::{Kind, Sent};
use log::{log_enabled, trace, Level};
use rand::Rng;
use rand_chacha::ChaCha8Rng;
use vsr_rs::Message;

pub struct Network {
    options: NetworkOptions,
    network: bellmantle::Network<Message<Op>>,
    /// The Rust's own network, for its sampling of a delay alone.
    sampler: extended::Network,
    pub summary: MessageSummary,
    /// Room for the verdicts on a take.
    pub(super) told: Vec<u64>,
}

/// Draws and extras for one send, as many as it may use at most.
#[derive(Default)]
struct Lent {
    draws: [u64; 2],
    drawn: usize,
    extras: [u64; 2],
    sampled: usize,
}

impl Network {
    pub fn new(options: NetworkOptions) -> Network {
        Network {
            network: bellmantle::Network::new(ours(&options)).unwrap_or_else(|r| refused(r)),
            sampler: extended::Network::new(sampled(&options)),
            options,
            summary: MessageSummary::default(),
            told: Vec::new(),
        }
    }

    pub fn options(&self) -> &NetworkOptions {
        &self.options
    }

    pub fn set_options(&mut self, options: NetworkOptions) {
        let set = self.network.set_options(ours(&options));
        set.unwrap_or_else(|r| refused(r));
        self.sampler.set_options(sampled(&options));
        self.options = options;
    }

    pub fn pending(&self) -> usize {
        self.network.pending()
    }

    pub fn in_flight(&self) -> InFlight {
        InFlight(self.network.in_flight().map(|flying| envelope(cloned(flying))).collect())
    }

    pub fn send(
        &mut self,
        now: u64,
        from: Origin,
        dst: ReplicaId,
        msg: Message<Op>,
        rng: &mut ChaCha8Rng,
    ) {
        let kind = kind(&msg);
        let lent = self.lend(kind, rng);
        let told = log_enabled!(Level::Trace).then(|| format!("{msg:?} to {dst}"));
        let draws = &lent.draws[..lent.drawn];
        let extras = &lent.extras[..lent.sampled];
        let sent = self
            .network
            .send(now, origin(from), dst as u64, kind, msg, draws, extras)
            .unwrap_or_else(|r| refused(r));
        self.count();
        advance(rng, &sent);
        if let Some(told) = told {
            self.trace(now, &told, &sent, &lent);
        }
    }

    pub fn take_due(&mut self, now: u64) -> Vec<Envelope> {
        let due = self.network.take_due(now).unwrap_or_else(|r| refused(r));
        self.count();
        due.into_iter().map(envelope).collect()
    }

    /// The records of the last take.
    pub(super) fn taken(&self) -> &[u64] {
        self.network.taken()
    }

    /// Draws from a copy of the generator: how many words of it a message uses only the answer tells. A probability of 1
    /// uses no draw, and one of 0 none in a send.
    fn lend(&self, kind: Kind, rng: &ChaCha8Rng) -> Lent {
        let mut lent = Lent::default();
        let options = &self.options;
        let delayed = options.one_way_delay_mean > options.one_way_delay_min;
        let drawn = drawn(options.packet_loss_probability) + drawn(options.packet_replay_probability);
        let plain = kind == Kind::Request && !options.fault_client_messages;
        if plain || (drawn == 0 && !delayed) {
            return lent;
        }
        let mut copy = rng.clone();
        lent.drawn = drawn;
        lent.draws[..drawn].fill_with(|| copy.gen());
        if delayed {
            lent.sampled = 1 + usize::from(options.packet_replay_probability > 0.0);
            lent.extras[..lent.sampled].fill_with(|| self.sampler.extra(&mut copy));
        }
        lent
    }

    /// The lines that the Rust's network logs.
    fn trace(&self, now: u64, told: &str, sent: &Sent, lent: &Lent) {
        if sent.lost {
            trace!("tick {now}: lost {told}");
            return;
        }
        if sent.replayed {
            trace!("tick {now}: replaying {told}");
        }
        for extra in lent.extras[..sent.extras].iter().filter(|&&extra| extra > 0) {
            let delay = self.options.one_way_delay_min + extra;
            trace!("tick {now}: delaying {told} by {delay}");
        }
    }

    fn count(&mut self) {
        let counts = self.network.summary();
        self.summary = MessageSummary {
            sent: counts.sent as usize,
            delivered: counts.delivered as usize,
            lost: counts.lost as usize,
            replayed: counts.replayed as usize,
            delayed: counts.delayed as usize,
        };
    }
}

/// Messages in flight, in delivery order. The library hands them out by value; the simulator asks for a cloned iterator.
pub struct InFlight(Vec<Envelope>);

impl InFlight {
    pub fn cloned(self) -> std::vec::IntoIter<Envelope> {
        self.0.into_iter()
    }
}

/// Moves the generator on by what was used. A draw and a delay are a word of it each.
fn advance(rng: &mut ChaCha8Rng, sent: &Sent) {
    for _ in 0..sent.draws + sent.extras {
        rng.gen::<u64>();
    }
}

/// How many words a draw on a probability uses.
fn drawn(probability: f64) -> usize {
    usize::from(probability > 0.0 && probability < 1.0)
}

fn ours(options: &NetworkOptions) -> bellmantle::NetworkOptions {
    bellmantle::NetworkOptions {
        packet_loss_probability: options.packet_loss_probability,
        packet_replay_probability: options.packet_replay_probability,
        one_way_delay_min: options.one_way_delay_min,
        one_way_delay_mean: options.one_way_delay_mean,
        fault_client_messages: options.fault_client_messages,
    }
}

fn sampled(options: &NetworkOptions) -> extended::NetworkOptions {
    extended::NetworkOptions {
        packet_loss_probability: options.packet_loss_probability,
        packet_replay_probability: options.packet_replay_probability,
        one_way_delay_min: options.one_way_delay_min,
        one_way_delay_mean: options.one_way_delay_mean,
        fault_client_messages: options.fault_client_messages,
    }
}

fn origin(from: Origin) -> bellmantle::Origin {
    match from {
        Origin::Replica(id) => bellmantle::Origin::Replica(id as u64),
        Origin::Client(id) => bellmantle::Origin::Client(id as u64),
    }
}

fn envelope(taken: bellmantle::Envelope<Message<Op>>) -> Envelope {
    Envelope {
        from: match taken.from {
            bellmantle::Origin::Replica(id) => Origin::Replica(id as usize),
            bellmantle::Origin::Client(id) => Origin::Client(id as usize),
        },
        to: taken.to as usize,
        sent_at: taken.sent_at,
        due_at: taken.due_at,
        message: taken.message,
    }
}

fn cloned(flying: bellmantle::Envelope<&Message<Op>>) -> bellmantle::Envelope<Message<Op>> {
    bellmantle::Envelope {
        from: flying.from,
        to: flying.to,
        sent_at: flying.sent_at,
        due_at: flying.due_at,
        message: flying.message.clone(),
    }
}

fn kind(message: &Message<Op>) -> Kind {
    match message {
        Message::Request { .. } => Kind::Request,
        Message::Prepare { .. } => Kind::Prepare,
        Message::PrepareOk { .. } => Kind::PrepareOk,
        Message::Commit { .. } => Kind::Commit,
        Message::GetState { .. } => Kind::GetState,
        Message::NewState { .. } => Kind::NewState,
        Message::StartViewChange { .. } => Kind::StartViewChange,
        Message::DoViewChange { .. } => Kind::DoViewChange,
        Message::StartView { .. } => Kind::StartView,
        Message::Recovery { .. } => Kind::Recovery,
        Message::RecoveryResponse { .. } => Kind::RecoveryResponse,
    }
}
