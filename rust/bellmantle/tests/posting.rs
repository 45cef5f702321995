//! A network that posts its messages beside one of words whose messages are queued at once, call by call on random runs: whatever a
//! caller can see of the two is the same after every call.

use bellmantle::raw::{self, head, record, RECORDS_WORDS, RECORD_WORDS};
use bellmantle::{Kind, Message, Network, NetworkOptions, Origin, Refusal};
use std::collections::BTreeMap;

/// SplitMix64, so that the runs are the same everywhere.
struct Draws(u64);

impl Draws {
    fn word(&mut self) -> u64 {
        self.0 = self.0.wrapping_add(0x9e37_79b9_7f4a_7c15);
        let mut word = self.0;
        word = (word ^ (word >> 30)).wrapping_mul(0xbf58_476d_1ce4_e5b9);
        word = (word ^ (word >> 27)).wrapping_mul(0x94d0_49bb_1331_11eb);
        word ^ (word >> 31)
    }

    fn below(&mut self, bound: u64) -> u64 {
        self.word() % bound
    }

    fn once_in(&mut self, times: u64) -> bool {
        self.below(times) == 0
    }

    /// Words for a message: two or more, as many as it can use, or fewer.
    fn words(&mut self, short: bool, word: impl Fn(&mut Draws) -> u64) -> Vec<u64> {
        let count = self.below(2) + if short { 0 } else { 2 };
        (0..count).map(|_| word(self)).collect()
    }
}

/// A body is the number of its message, which is its handle on the side of words.
#[derive(Clone, Debug, PartialEq, Eq)]
struct Body(u64);

/// A message in flight or taken: sent at, due at, sender's sort and id, receiver, body.
type Seen = [u64; 6];

fn seen_in_record(words: &[u64]) -> Seen {
    [
        words[record::SENT_AT],
        words[record::DUE],
        words[record::SORT],
        words[record::ORIGIN],
        words[record::TO],
        words[record::HANDLE],
    ]
}

fn seen_in_envelope(sent_at: u64, due_at: u64, from: Origin, to: u64, body: &Body) -> Seen {
    let (sort, origin) = match from {
        Origin::Replica(id) => (0, id),
        Origin::Client(id) => (1, id),
    };
    [sent_at, due_at, sort, origin, to, body.0]
}

/// What is sent.
#[derive(Clone, Copy)]
struct Letter {
    now: u64,
    from: Origin,
    to: u64,
    kind: Kind,
    number: u64,
}

impl Letter {
    fn words(&self) -> [u64; 6] {
        let (sort, origin) = match self.from {
            Origin::Replica(id) => (0, id),
            Origin::Client(id) => (1, id),
        };
        [
            self.now,
            sort,
            origin,
            self.to,
            self.kind as u64,
            self.number,
        ]
    }

    fn message(&self) -> Message<Body> {
        Message {
            now: self.now,
            from: self.from,
            to: self.to,
            kind: self.kind,
            body: Body(self.number),
        }
    }
}

/// The side of words: every call is the library's.
struct Plain {
    head: [u64; 12],
    records: [u64; RECORDS_WORDS],
    out: [u64; RECORDS_WORDS],
}

impl Plain {
    fn listed(&self, count: u64) -> Vec<Seen> {
        let words = &self.out[..count as usize * RECORD_WORDS];
        words
            .chunks_exact(RECORD_WORDS)
            .map(seen_in_record)
            .collect()
    }

    fn send(&mut self, letter: &Letter, draws: &[u64], extras: &[u64]) -> Result<[u64; 4], u64> {
        let [now, sort, origin, to, kind, handle] = letter.words();
        let mut told = [0; 4];
        let number = raw::network_send(
            &mut self.head,
            &mut self.records,
            now,
            sort,
            origin,
            to,
            kind,
            handle,
            draws,
            extras,
            &mut told,
        );
        refused(number).map(|()| told)
    }

    fn take(&mut self, now: u64) -> Vec<Seen> {
        let mut told = [0; 1];
        let Plain { head, records, out } = self;
        assert_eq!(
            raw::network_take_due(head, records, now, &mut out[..], &mut told),
            0
        );
        self.listed(told[0])
    }

    fn in_flight(&mut self) -> Vec<Seen> {
        let mut told = [0; 1];
        let Plain { head, records, out } = self;
        assert_eq!(
            raw::network_in_flight(head, records, &mut out[..], &mut told),
            0
        );
        self.listed(told[0])
    }
}

fn refused(number: u64) -> Result<(), u64> {
    match number {
        0 => Ok(()),
        number => Err(number),
    }
}

/// Both sides, what is known of the run, and how often each outcome was met.
struct Run {
    network: Network<Body>,
    plain: Plain,
    options: NetworkOptions,
    clock: u64,
    sent: u64,
    /// Messages accepted since the queue was last gone over.
    waiting: u64,
    met: BTreeMap<&'static str, u64>,
}

fn words_of(options: &NetworkOptions) -> [u64; 5] {
    [
        options.packet_loss_probability.to_bits(),
        options.packet_replay_probability.to_bits(),
        options.one_way_delay_min,
        options.one_way_delay_mean,
        u64::from(options.fault_client_messages),
    ]
}

fn options(draws: &mut Draws) -> NetworkOptions {
    let probability = |draws: &mut Draws| match draws.below(12) {
        0..=2 => 0.0,
        3 => 1.0,
        4 => 0.9,
        _ => [0.5, 0.1, 0.05, 0.25][draws.below(4) as usize],
    };
    let min = draws.below(6);
    NetworkOptions {
        packet_loss_probability: probability(draws),
        packet_replay_probability: probability(draws),
        one_way_delay_min: min,
        one_way_delay_mean: min + draws.below(3) * draws.below(20),
        fault_client_messages: draws.once_in(2),
    }
}

/// Options that are refused.
fn bad_options(draws: &mut Draws) -> NetworkOptions {
    let mut bad = options(draws);
    match draws.below(3) {
        0 => bad.packet_loss_probability = f64::NAN,
        1 => bad.packet_replay_probability = 1.5,
        _ => bad.one_way_delay_min = bad.one_way_delay_mean + 1,
    }
    bad
}

impl Run {
    fn new(draws: &mut Draws, met: BTreeMap<&'static str, u64>) -> Run {
        let options = options(draws);
        let mut plain = Plain {
            head: [0; 12],
            records: [0; RECORDS_WORDS],
            out: [0; RECORDS_WORDS],
        };
        let [loss, replay, min, mean, flag] = words_of(&options);
        let Plain { head, records, .. } = &mut plain;
        let number = raw::network_new(head, records, loss, replay, min, mean, flag);
        assert_eq!(number, 0);
        Run {
            network: Network::new(options.clone()).unwrap(),
            plain,
            options,
            clock: draws.below(1_000),
            sent: 0,
            waiting: 0,
            met,
        }
    }

    fn meet(&mut self, name: &'static str) {
        *self.met.get_mut(name).expect("an outcome that is listed") += 1;
    }

    fn letter(&mut self, draws: &mut Draws) -> Letter {
        const KINDS: [Kind; 5] = [
            Kind::Request,
            Kind::Prepare,
            Kind::Commit,
            Kind::StartView,
            Kind::RecoveryResponse,
        ];
        self.sent += 1;
        let id = draws.below(5);
        let (ahead, late) = (draws.below(20), draws.once_in(60));
        Letter {
            now: match late {
                true => u64::MAX - draws.below(8),
                false => self.clock + ahead * u64::from(ahead < 3),
            },
            from: match draws.below(2) {
                0 => Origin::Replica(id),
                _ => Origin::Client(id),
            },
            to: draws.below(5),
            kind: KINDS[draws.below(5) as usize],
            number: self.sent,
        }
    }

    fn send(&mut self, draws: &mut Draws) {
        let letter = self.letter(draws);
        let short = draws.once_in(8);
        let lent = draws.words(short, Draws::word);
        let extras = draws.words(short, |draws| draws.below(12).saturating_sub(4));
        let before = self.plain.head;
        let told = self.plain.send(&letter, &lent, &extras);
        let sent = self.network.send(
            letter.now,
            letter.from,
            letter.to,
            letter.kind,
            Body(letter.number),
            &lent,
            &extras,
        );
        let seen = sent.map(|sent| {
            [
                u64::from(sent.lost),
                u64::from(sent.replayed),
                sent.draws as u64,
                sent.extras as u64,
            ]
        });
        assert_eq!(seen.map_err(Refusal::number), told);
        let is_faulted = letter.kind != Kind::Request || self.options.fault_client_messages;
        match told {
            Err(refusal) => self.meet(match refusal {
                26 => "26",
                27 => "27",
                28 => "28",
                29 => "29",
                number => panic!("refused by {number}"),
            }),
            Ok([1, ..]) => self.meet("lost"),
            Ok([_, 1, ..]) => self.meet("replayed"),
            Ok(_) if is_faulted => self.meet("once"),
            Ok(_) => self.meet("not faulted"),
        }
        self.waiting = match told {
            Ok(_) => self.waiting + 1,
            Err(29) => 0,
            Err(_) => self.waiting,
        };
        if self.waiting == 129 {
            self.meet("over 128 waiting");
        }
        if before[head::DELAYED] < self.plain.head[head::DELAYED] {
            self.meet("delayed");
        }
        if before[head::PENDING] < 128 && self.plain.head[head::PENDING] == 128 {
            self.meet("left full");
        }
    }

    fn take(&mut self, draws: &mut Draws) {
        let now = match draws.below(30) {
            0 => u64::MAX,
            1 => self.clock + 30,
            2 => self.clock / 2,
            _ => self.clock,
        };
        let expected = self.plain.take(now);
        let taken = self.network.take_due(now).unwrap();
        let seen: Vec<Seen> = taken
            .iter()
            .map(|e| seen_in_envelope(e.sent_at, e.due_at, e.from, e.to, &e.message))
            .collect();
        assert_eq!(seen, expected);
        if !seen.is_empty() {
            self.waiting = 0;
        }
        self.meet(match (seen.len(), self.plain.head[head::PENDING]) {
            (0, _) => "none taken",
            (_, 0) => "all taken",
            _ => "some taken",
        });
    }

    fn set_options(&mut self, draws: &mut Draws) {
        let options = match draws.below(3) {
            0 => bad_options(draws),
            _ => options(draws),
        };
        self.waiting = 0;
        let [loss, replay, min, mean, flag] = words_of(&options);
        let Plain { head, records, .. } = &mut self.plain;
        let number = raw::network_set_options(head, records, loss, replay, min, mean, flag);
        let set = self.network.set_options(options.clone());
        assert_eq!(set.map_err(Refusal::number), refused(number));
        self.meet(match number {
            0 => "options set",
            20 => "20",
            21 => "21",
            _ => "22",
        });
        if number == 0 {
            self.options = options;
        }
        assert_eq!(self.network.options(), &self.options);
    }

    fn tick(&mut self, draws: &mut Draws) {
        let letters: Vec<Letter> = (0..draws.below(4)).map(|_| self.letter(draws)).collect();
        let sends: Vec<u64> = letters.iter().flat_map(Letter::words).collect();
        let count = draws.below(9);
        let lent: Vec<u64> = (0..count).map(|_| draws.word()).collect();
        let extras: Vec<u64> = (0..count).map(|_| draws.below(9)).collect();
        let now = self.clock;
        self.waiting = 0;
        let mut told = [0; 3];
        let Plain { head, records, out } = &mut self.plain;
        let out = &mut out[..];
        let packed = raw::network_tick(head, records, &sends, &lent, &extras, now, out, &mut told);
        let messages = letters.iter().map(Letter::message).collect();
        match self.network.tick(messages, &lent, &extras, now) {
            Err(back) => {
                assert_eq!(back.refusal.number() << 32 | back.place as u64, packed);
                assert_eq!(back.messages.len(), letters.len());
                self.meet("tick refused");
            }
            Ok(ticked) => {
                assert_eq!(packed, 0);
                let due = ticked.due.iter();
                let seen: Vec<Seen> = due
                    .map(|e| seen_in_envelope(e.sent_at, e.due_at, e.from, e.to, &e.message))
                    .collect();
                assert_eq!([ticked.draws as u64, ticked.extras as u64], told[..2]);
                assert_eq!(seen, self.plain.listed(told[2]));
                self.meet("tick");
            }
        }
    }

    /// All that can be seen without a call that changes something.
    fn look(&mut self) {
        let words = &self.plain.head;
        assert_eq!(self.network.pending() as u64, words[head::PENDING]);
        let first = (words[head::PENDING] > 0).then(|| self.plain.records[record::DUE]);
        assert_eq!(self.network.next_due(), first);
        let summary = self.network.summary();
        let counts = [
            summary.sent,
            summary.delivered,
            summary.lost,
            summary.replayed,
            summary.delayed,
        ];
        assert_eq!(counts, words[head::SENT..=head::DELAYED]);
    }

    fn look_at_all(&mut self) {
        let expected = self.plain.in_flight();
        let seen: Vec<Seen> = self
            .network
            .in_flight()
            .map(|e| seen_in_envelope(e.sent_at, e.due_at, e.from, e.to, e.message))
            .collect();
        assert_eq!(seen, expected);
        self.meet(match seen.len() {
            0 => "none in flight",
            _ => "some in flight",
        });
    }
}

const OUTCOMES: [&str; 22] = [
    "lost",
    "replayed",
    "once",
    "not faulted",
    "delayed",
    "left full",
    "none taken",
    "some taken",
    "all taken",
    "options set",
    "tick",
    "tick refused",
    "none in flight",
    "some in flight",
    "over 128 waiting",
    "20",
    "21",
    "22",
    "26",
    "27",
    "28",
    "29",
];

#[test]
fn posting_is_sending_at_once() {
    let mut met: BTreeMap<&str, u64> = OUTCOMES.iter().map(|&name| (name, 0)).collect();
    for seed in 0..300 {
        let mut draws = Draws(seed);
        let mut run = Run::new(&mut draws, met);
        // How seldom what is due is taken, and how often all is looked at.
        let patience = [3, 8, 30, 500][draws.below(4) as usize];
        let curiosity = [2, 20, 100][draws.below(3) as usize];
        for _ in 0..400 {
            match draws.below(100) {
                0 => run.set_options(&mut draws),
                1 => run.tick(&mut draws),
                _ if draws.once_in(patience) => run.take(&mut draws),
                _ => run.send(&mut draws),
            }
            run.look();
            if draws.once_in(curiosity) {
                run.look_at_all();
            }
            run.clock += draws.below(2) * draws.below(4);
        }
        met = run.met;
    }
    println!("{met:?}");
    assert!(met.values().all(|&times| times > 0), "{met:?}");
}
