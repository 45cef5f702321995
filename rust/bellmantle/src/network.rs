//! The simulated network, with bodies.

use crate::bodies::Bodies;
use crate::posted::Posted;
use crate::raw::{head, record as at, CAPACITY, MESSAGE_WORDS, RECORDS_WORDS, RECORD_WORDS};
use crate::{raw, Refusal, Words};
use std::borrow::Cow;

/// Who sends a message.
#[derive(Clone, Copy, Debug, PartialEq, Eq)]
pub enum Origin {
    /// A replica, by its id.
    Replica(u64),
    /// A client, by its id.
    Client(u64),
}

impl Origin {
    /// Its sort and id.
    pub(crate) fn words(self) -> (u64, u64) {
        match self {
            Origin::Replica(id) => (0, id),
            Origin::Client(id) => (1, id),
        }
    }

    fn of_words(sort: u64, id: u64) -> Origin {
        match sort {
            0 => Origin::Replica(id),
            _ => Origin::Client(id),
        }
    }
}

/// The kind of a message, in the order of the simulator's `message_kind`.
#[derive(Clone, Copy, Debug, PartialEq, Eq)]
#[repr(u64)]
#[allow(missing_docs)]
pub enum Kind {
    Request = 0,
    Prepare = 1,
    PrepareOk = 2,
    Commit = 3,
    GetState = 4,
    NewState = 5,
    StartViewChange = 6,
    DoViewChange = 7,
    StartView = 8,
    Recovery = 9,
    RecoveryResponse = 10,
}

/// Network fault injection options.
#[derive(Clone, Debug, PartialEq)]
pub struct NetworkOptions {
    /// Probability per message that it is lost.
    pub packet_loss_probability: f64,
    /// Probability per message that it is delivered twice.
    pub packet_replay_probability: f64,
    /// Minimum one-way delay in ticks.
    pub one_way_delay_min: u64,
    /// Mean one-way delay in ticks; equal to the minimum, no extra is used.
    pub one_way_delay_mean: u64,
    /// Whether faults also apply to requests.
    pub fault_client_messages: bool,
}

impl NetworkOptions {
    /// A perfect network: no loss, no replay, no delay.
    pub fn perfect() -> NetworkOptions {
        NetworkOptions {
            packet_loss_probability: 0.0,
            packet_replay_probability: 0.0,
            one_way_delay_min: 0,
            one_way_delay_mean: 0,
            fault_client_messages: false,
        }
    }

    /// What becomes of a message of a kind that is sent at tick `now` under these options, with no network at hand. A send on a
    /// network with these options decides the same. 20, 21, 22, 24, 26, 27, 28.
    ///
    /// ```
    /// use bellmantle::{Kind, NetworkOptions};
    ///
    /// let options = NetworkOptions { one_way_delay_min: 2, one_way_delay_mean: 10, ..NetworkOptions::perfect() };
    /// let fate = options.fate(10, Kind::Prepare as u64, &[], &[5]).unwrap();
    /// assert_eq!((fate.copy, fate.original, fate.extras), (None, Some(17), 1));
    /// ```
    #[inline]
    pub fn fate(
        &self,
        now: u64,
        kind: u64,
        draws: &[u64],
        extras: &[u64],
    ) -> Result<Fate, Refusal> {
        let (loss, replay, min, mean, flag) = self.words();
        let mut told = [0; raw::FATE_WORDS];
        Refusal::check(raw::fate(
            [loss, replay, min, mean, flag],
            now,
            kind,
            draws,
            extras,
            &mut told,
        ))?;
        Ok(Fate::told(told))
    }

    #[inline]
    pub(crate) fn words(&self) -> (u64, u64, u64, u64, u64) {
        (
            self.packet_loss_probability.to_bits(),
            self.packet_replay_probability.to_bits(),
            self.one_way_delay_min,
            self.one_way_delay_mean,
            u64::from(self.fault_client_messages),
        )
    }
}

/// Message counters.
#[derive(Clone, Copy, Debug, Default, PartialEq, Eq)]
#[allow(missing_docs)]
pub struct MessageSummary {
    pub sent: u64,
    pub delivered: u64,
    pub lost: u64,
    pub replayed: u64,
    /// Copies delayed beyond the minimum transit time.
    pub delayed: u64,
}

/// What became of a message that was sent, and how many words of each lent list were used, from its front.
#[derive(Clone, Copy, Debug, PartialEq, Eq)]
#[allow(missing_docs)]
pub struct Sent {
    pub lost: bool,
    pub replayed: bool,
    pub draws: usize,
    pub extras: usize,
}

impl Sent {
    pub(crate) fn told(words: [u64; 4]) -> Sent {
        Sent {
            lost: words[0] == 1,
            replayed: words[1] == 1,
            draws: words[2] as usize,
            extras: words[3] as usize,
        }
    }

    /// How many copies it queued.
    pub fn copies(&self) -> u32 {
        match (self.lost, self.replayed) {
            (true, _) => 0,
            (false, false) => 1,
            (false, true) => 2,
        }
    }
}

/// What a message's draws and extras decide: how many of each are used, from each front, and when its copies are due.
#[derive(Clone, Copy, Debug, PartialEq, Eq, Hash)]
pub struct Fate {
    /// How many draws are used.
    pub draws: usize,
    /// How many extras are used.
    pub extras: usize,
    /// When the replayed copy is due, which is numbered first; none where the message is not replayed.
    pub copy: Option<u64>,
    /// When the message itself is due; none where it is lost.
    pub original: Option<u64>,
}

impl Fate {
    #[inline]
    fn told(words: [u64; raw::FATE_WORDS]) -> Fate {
        let [lost, replayed, draws, extras, copy, original] = words;
        Fate {
            draws: draws as usize,
            extras: extras as usize,
            copy: (replayed == 1).then_some(copy),
            original: (lost == 0).then_some(original),
        }
    }

    /// What a send of such a message tells.
    #[inline]
    pub fn sent(&self) -> Sent {
        Sent {
            lost: self.original.is_none(),
            replayed: self.copy.is_some(),
            draws: self.draws,
            extras: self.extras,
        }
    }
}

/// A message to be sent in a tick.
#[derive(Clone, Debug)]
#[allow(missing_docs)]
pub struct Message<M> {
    pub now: u64,
    pub from: Origin,
    pub to: u64,
    pub kind: Kind,
    pub body: M,
}

/// A message in the network.
#[derive(Clone, Debug, PartialEq, Eq)]
#[allow(missing_docs)]
pub struct Envelope<M> {
    pub from: Origin,
    pub to: u64,
    pub sent_at: u64,
    pub due_at: u64,
    pub message: M,
}

/// What a tick gave.
#[derive(Clone, Debug)]
#[allow(missing_docs)]
pub struct Ticked<M> {
    pub draws: usize,
    pub extras: usize,
    pub due: Vec<Envelope<M>>,
}

/// A tick that was refused: why, at which call (the take's place is the number of messages), and the messages back.
#[derive(Clone, Debug)]
#[allow(missing_docs)]
pub struct TickRefused<M> {
    pub refusal: Refusal,
    pub place: usize,
    pub messages: Vec<Message<M>>,
}

/// A record's words as an envelope of a body.
pub(crate) fn envelope<M>(record: &[u64], message: M) -> Envelope<M> {
    Envelope {
        from: Origin::of_words(record[at::SORT], record[at::ORIGIN]),
        to: record[at::TO],
        sent_at: record[at::SENT_AT],
        due_at: record[at::DUE],
        message,
    }
}

/// The simulated network. It holds at most 128 messages in flight.
///
/// A message is decided by the library as it is sent: whether it is lost or replayed, what it uses, and when it is due. Into the
/// library's queue it comes later, so that the queue is gone over once for many messages and not once for each:
///
/// - with the next [`take_due`](Network::take_due) that has something due, in one call with it;
/// - before the next [`set_options`](Network::set_options) or [`tick`](Network::tick), and once 128 messages wait;
/// - before a send for which there is no room, so that the library refuses that send itself.
///
/// A look ([`in_flight`](Network::in_flight), [`pending`](Network::pending), [`next_due`](Network::next_due),
/// [`summary`](Network::summary)) sees a message from its send on, queued or not, and so no caller sees when it is queued.
pub struct Network<M> {
    options: NetworkOptions,
    /// What is queued.
    words: Words,
    /// What is sent and not queued yet. The copies of both together are no more than the capacity.
    posted: Posted,
    bodies: Bodies<M>,
    /// What is taken is written here first, and so many records they were.
    out: Box<[u64; RECORDS_WORDS]>,
    taken: usize,
}

impl<M: Clone> Network<M> {
    /// The most messages in flight.
    pub const CAPACITY: usize = CAPACITY;

    /// A fresh network: 20, 21, 22.
    pub fn new(options: NetworkOptions) -> Result<Network<M>, Refusal> {
        Ok(Network {
            words: Words::new(&options)?,
            options,
            posted: Posted::default(),
            bodies: Bodies::new(),
            out: Box::new([0; RECORDS_WORDS]),
            taken: 0,
        })
    }

    /// The options in force.
    pub fn options(&self) -> &NetworkOptions {
        &self.options
    }

    /// Replaces the fault options. Messages already in flight keep their scheduled delivery tick. 20, 21, 22.
    pub fn set_options(&mut self, options: NetworkOptions) -> Result<(), Refusal> {
        // What is posted was decided by the old ones.
        self.queue();
        self.words.set_options(&options)?;
        self.options = options;
        Ok(())
    }

    /// The counters.
    pub fn summary(&self) -> MessageSummary {
        self.posted.counted(self.words.summary())
    }

    /// Number of messages in flight.
    pub fn pending(&self) -> usize {
        queued(&self.words) + self.posted.copies()
    }

    /// The tick at which the next message is due, if one is in flight: a take before it takes none.
    pub fn next_due(&self) -> Option<u64> {
        let first = match queued(&self.words) {
            0 => None,
            _ => Some(self.words.records()[at::DUE]),
        };
        first.into_iter().chain(self.posted.next_due()).min()
    }

    /// Messages in flight, in delivery order.
    pub fn in_flight(&self) -> impl Iterator<Item = Envelope<&M>> {
        let words = self.all_queued();
        let flying: Vec<Envelope<&M>> = words.records()[..queued(&words) * RECORD_WORDS]
            .chunks_exact(RECORD_WORDS)
            .map(|record| envelope(record, self.bodies.get(record[at::HANDLE])))
            .collect();
        flying.into_iter()
    }

    /// The words as they are once all is queued: a copy of them, if something is posted.
    fn all_queued(&self) -> Cow<'_, Words> {
        let mut words = Cow::Borrowed(&self.words);
        if !self.posted.is_empty() {
            self.posted.send_to(words.to_mut());
        }
        words
    }

    /// Queues what is posted, one after the other.
    fn queue(&mut self) {
        self.posted.send_to(&mut self.words);
        self.posted.clear();
    }

    /// Accepts a message sent at tick `now`, applying faults by the lent draws and extras. 24 to 29; the body is dropped with a
    /// refusal. It is decided here, and queued later: see [`Network`].
    #[allow(clippy::too_many_arguments)]
    pub fn send(
        &mut self,
        now: u64,
        from: Origin,
        to: u64,
        kind: Kind,
        body: M,
        draws: &[u64],
        extras: &[u64],
    ) -> Result<Sent, Refusal> {
        let (sort, origin) = from.words();
        let message = [now, sort, origin, to, kind as u64, self.bodies.next()];
        let sent = self.post(message, draws, extras)?;
        if sent.copies() > 0 {
            self.bodies.keep(body, sent.copies());
        }
        Ok(sent)
    }

    /// Decides a message and posts it; at a limit the library's send itself answers.
    fn post(
        &mut self,
        message: [u64; MESSAGE_WORDS],
        draws: &[u64],
        extras: &[u64],
    ) -> Result<Sent, Refusal> {
        let sent = self.words.head()[head::SENT] + self.posted.count();
        if self.posted.is_full() || sent >= SENT_LIMIT {
            self.queue();
            return self.words.send(message, draws, extras);
        }
        let [now, _, _, _, kind, _] = message;
        let fate = self.options.fate(now, kind, draws, extras)?;
        let sent = fate.sent();
        if self.pending() + sent.copies() as usize > CAPACITY {
            self.queue();
            return self.words.send(message, draws, extras);
        }
        self.posted.add(message, &fate, draws, extras);
        Ok(sent)
    }

    /// Takes every message due at tick `now`, in delivery order.
    pub fn take_due(&mut self, now: u64) -> Result<Vec<Envelope<M>>, Refusal> {
        let is_due = self.next_due().is_some_and(|due| due <= now);
        if !is_due {
            self.taken = 0;
            return Ok(Vec::new());
        }
        self.taken = self.take(now)?;
        let Network {
            out, taken, bodies, ..
        } = self;
        Ok(out[..*taken * RECORD_WORDS]
            .chunks_exact(RECORD_WORDS)
            .map(|record| envelope(record, bodies.deliver(record[at::HANDLE])))
            .collect())
    }

    /// The records of the last take that was accepted, in its order, [`raw::RECORD_WORDS`] words each: what
    /// [`Plants::verdicts`](crate::Plants::verdicts) is lent. A record's handle names a body that is delivered, and nothing any more.
    pub fn taken(&self) -> &[u64] {
        &self.out[..self.taken * RECORD_WORDS]
    }

    /// Queues what is posted and takes what is due, in one call.
    fn take(&mut self, now: u64) -> Result<usize, Refusal> {
        let out = &mut self.out[..];
        if self.posted.is_empty() {
            return self.words.take_due(now, out);
        }
        let (sends, draws, extras) = self.posted.lists();
        let told = self.words.tick(sends, draws, extras, now, out);
        let [_, _, taken] = told.map_err(|(refusal, _)| refusal)?;
        self.posted.clear();
        Ok(taken)
    }

    /// Sends messages one after the other and then takes what is due at tick `now`, in one call. If one is refused nothing is
    /// changed.
    pub fn tick(
        &mut self,
        messages: Vec<Message<M>>,
        draws: &[u64],
        extras: &[u64],
        now: u64,
    ) -> Result<Ticked<M>, TickRefused<M>> {
        self.queue();
        // A body's handle here is its place among the messages; those still in flight afterwards get a handle of the slab.
        let mut sends = Vec::with_capacity(messages.len() * MESSAGE_WORDS);
        for (place, message) in messages.iter().enumerate() {
            let (sort, origin) = message.from.words();
            let handle = NEW | place as u64;
            sends.extend([
                message.now,
                sort,
                origin,
                message.to,
                message.kind as u64,
                handle,
            ]);
        }
        let told = self
            .words
            .tick(&sends, draws, extras, now, &mut self.out[..]);
        match told {
            Err((refusal, place)) => Err(TickRefused {
                refusal,
                place,
                messages,
            }),
            Ok([draws, extras, taken]) => {
                self.taken = taken;
                let due = self.settle(messages, taken);
                Ok(Ticked { draws, extras, due })
            }
        }
    }

    /// The bodies of a tick: what was taken is delivered, what stays in flight gets a handle of the slab.
    fn settle(&mut self, messages: Vec<Message<M>>, taken: usize) -> Vec<Envelope<M>> {
        let due = self.out[..taken * RECORD_WORDS]
            .chunks_exact(RECORD_WORDS)
            .map(|record| match record[at::HANDLE] & NEW {
                0 => envelope(record, self.bodies.deliver(record[at::HANDLE])),
                _ => envelope(
                    record,
                    messages[(record[at::HANDLE] ^ NEW) as usize].body.clone(),
                ),
            })
            .collect();
        let pending = self.pending() * RECORD_WORDS;
        let mut copies = vec![0; messages.len()];
        for record in self.words.records[..pending].chunks_exact(RECORD_WORDS) {
            if record[at::HANDLE] & NEW != 0 {
                copies[(record[at::HANDLE] ^ NEW) as usize] += 1;
            }
        }
        let mut handles = vec![0; messages.len()];
        for (place, message) in messages.into_iter().enumerate() {
            if copies[place] > 0 {
                handles[place] = self.bodies.next();
                self.bodies.keep(message.body, copies[place]);
            }
        }
        for record in self.words.records[..pending].chunks_exact_mut(RECORD_WORDS) {
            if record[at::HANDLE] & NEW != 0 {
                record[at::HANDLE] = handles[(record[at::HANDLE] ^ NEW) as usize];
            }
        }
        due
    }
}

/// How many messages are queued.
fn queued(words: &Words) -> usize {
    words.head()[head::PENDING] as usize
}

/// The most messages that can be sent.
const SENT_LIMIT: u64 = 1 << 62;

/// Marks a handle that is a place among a tick's messages: no slab has so many bodies.
const NEW: u64 = 1 << 63;

#[cfg(test)]
mod tests {
    use super::*;

    #[test]
    fn the_limit_of_messages_sent_is_told_by_the_send_that_meets_it() {
        let mut network = Network::new(NetworkOptions::perfect()).unwrap();
        let (sent, lost) = (SENT_LIMIT - 2, SENT_LIMIT - 2);
        network.words.head[head::SENT] = sent;
        network.words.head[head::LOST] = lost;
        let from = Origin::Replica(1);
        let mut send = |body| network.send(3, from, 2, Kind::Prepare, body, &[], &[]);
        assert_eq!(send("a").unwrap().copies(), 1);
        assert_eq!(send("b").unwrap().copies(), 1);
        assert_eq!(send("c"), Err(Refusal::SentLimit));
        assert_eq!(send("d"), Err(Refusal::SentLimit));
        assert_eq!((network.summary().sent, network.pending()), (SENT_LIMIT, 2));
        let bodies: Vec<&str> = network.in_flight().map(|flying| *flying.message).collect();
        assert_eq!(bodies, ["a", "b"]);
    }
}
