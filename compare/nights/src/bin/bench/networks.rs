//! The network through its lent entry points, beside the Rust's. Each call starts from the same network, put back before it.

use crate::timing::{alone, both, timed, Row};
use bellmantle::{Kind, NetworkOptions, Words};
use nights::extended::{self, Envelope, Network, Origin};
use nights::state_machine::Op;
use rand::SeedableRng;
use rand_chacha::ChaCha8Rng;
use std::time::Duration;
use vsr_rs::Message;

const TIMES: usize = 20_000;
const PENDING: [usize; 4] = [8, 32, 64, 127];
/// Dues of what is in flight are spread over these ticks.
const SPREAD: u64 = 10;
/// What is sent anew is due in their middle.
const MIDDLE: u64 = 5;

pub fn rows() -> Vec<Row> {
    let mut rows = Vec::new();
    rows.extend(PENDING.map(send));
    rows.extend(PENDING.map(take));
    rows.push(take_none(32));
    for pending in [8, 32, 64, 118] {
        rows.push(tick(pending));
    }
    rows.push(one_by_one(32));
    rows.extend(fates());
    rows.extend([8, 32, 64, 118].map(posted));
    rows.extend([32, 127].map(journaled));
    rows.push(rewind(32));
    rows
}

/// Both networks with the same messages in flight: one due at tick 0, and others later. The handle of a body stands in it.
fn networks(pending: usize) -> (Network, Words) {
    let perfect = extended::NetworkOptions::perfect();
    let mut rust = Network::new(perfect);
    let mut ours = Words::new(&NetworkOptions::perfect()).expect("the options are good");
    for place in 0..pending as u64 {
        let due = if place == 0 {
            0
        } else {
            1 + place * 7 % SPREAD
        };
        rust_send(&mut rust, due, place);
        ours_send(&mut ours, due, place);
    }
    same(&rust, &ours);
    (rust, ours)
}

fn rust_send(network: &mut Network, due: u64, handle: u64) {
    let mut rng = ChaCha8Rng::from_seed([0; 32]);
    network.send(due, Origin::Replica(1), 2, message(handle), &mut rng);
}

fn message(handle: u64) -> Message<Op> {
    Message::PrepareOk {
        view_number: 1,
        op_number: handle as usize,
        replica_id: 1,
    }
}

fn letter(due: u64, handle: u64) -> [u64; 6] {
    [due, 0, 1, 2, 2, handle]
}

fn ours_send(network: &mut Words, due: u64, handle: u64) {
    let sent = network.send(letter(due, handle), &[], &[]);
    assert_eq!(sent.expect("there is room").copies(), 1);
}

/// Whether both have the same messages in flight, in order.
fn same(rust: &Network, ours: &Words) {
    assert_eq!(rust.pending(), ours.head()[5] as usize);
    for (envelope, record) in rust.in_flight().zip(ours.records().chunks_exact(8)) {
        same_message(envelope, record);
    }
}

fn same_message(envelope: &Envelope, record: &[u64]) {
    let Message::PrepareOk { op_number, .. } = envelope.message else {
        panic!("only PrepareOk is sent");
    };
    let seen = (record[0], record[2], record[5], record[7]);
    let expected = (
        envelope.due_at,
        envelope.sent_at,
        envelope.to as u64,
        op_number as u64,
    );
    assert_eq!(seen, expected);
}

fn same_taken(due: &[Envelope], out: &[u64], taken: usize) {
    assert_eq!(due.len(), taken);
    for (envelope, record) in due.iter().zip(out.chunks_exact(8)) {
        same_message(envelope, record);
    }
}

/// Puts a network's words back, as they were.
fn put_back(work: &mut Words, base: &Words) {
    work.clone_from(base);
}

pub fn send(pending: usize) -> Row {
    let (rust, ours) = networks(pending);
    let mut rng = ChaCha8Rng::from_seed([0; 32]);
    let mut work = ours.clone();
    let mut copy = rust.copy();
    copy.send(MIDDLE, Origin::Replica(1), 2, message(999), &mut rng);
    work.send(letter(MIDDLE, 999), &[], &[])
        .expect("there is room");
    same(&copy, &work);
    both(
        format!("send, {pending} pending"),
        TIMES,
        || {
            let mut copy = rust.copy();
            let message = message(999);
            timed(|| copy.send(MIDDLE, Origin::Replica(1), 2, message, &mut rng)).0
        },
        || {
            put_back(&mut work, &ours);
            timed(|| work.send(letter(MIDDLE, 999), &[], &[])).0
        },
    )
}

fn take(pending: usize) -> Row {
    take_at(
        format!("take_due of one, {pending} pending"),
        pending,
        0,
        true,
    )
}

fn take_none(pending: usize) -> Row {
    take_at(
        format!("take_due of none, {pending} pending"),
        pending,
        0,
        false,
    )
}

/// A take at a tick; without the first, at which one is due, none is.
fn take_at(what: String, pending: usize, now: u64, first: bool) -> Row {
    let (mut rust, mut ours) = networks(pending);
    let mut out = [0; 1_024];
    if !first {
        rust.take_due(0);
        ours.take_due(0, &mut out).expect("there is room");
    }
    let mut work = ours.clone();
    let expected = rust.copy().take_due(now);
    let taken = work.take_due(now, &mut out).expect("there is room");
    same_taken(&expected, &out, taken);
    both(
        what,
        TIMES,
        || {
            let mut copy = rust.copy();
            timed(|| copy.take_due(now)).0
        },
        || {
            put_back(&mut work, &ours);
            timed(|| work.take_due(now, &mut out)).0
        },
    )
}

/// Ten messages, due at ticks spread as the others.
fn ten() -> Vec<(u64, u64)> {
    (0..10)
        .map(|place| (1 + place * 3 % SPREAD, 100 + place))
        .collect()
}

fn rust_tick(
    network: &mut Network,
    rng: &mut ChaCha8Rng,
    messages: Vec<(u64, Message<Op>)>,
) -> Vec<Envelope> {
    for (due, message) in messages {
        network.send(due, Origin::Replica(1), 2, message, rng);
    }
    network.take_due(1)
}

fn messages() -> Vec<(u64, Message<Op>)> {
    ten()
        .into_iter()
        .map(|(due, handle)| (due, message(handle)))
        .collect()
}

pub fn tick(pending: usize) -> Row {
    let (rust, ours) = networks(pending);
    let mut rng = ChaCha8Rng::from_seed([0; 32]);
    let sends: Vec<u64> = ten()
        .into_iter()
        .flat_map(|(due, handle)| letter(due, handle))
        .collect();
    let (mut work, mut out) = (ours.clone(), [0; 1_024]);
    let mut copy = rust.copy();
    let expected = rust_tick(&mut copy, &mut rng, messages());
    let told = work
        .tick(&sends, &[], &[], 1, &mut out)
        .expect("there is room");
    same_taken(&expected, &out, told[2]);
    same(&copy, &work);
    both(
        format!("ten sends and a take in one call, {pending} pending"),
        TIMES,
        || {
            let (mut copy, messages) = (rust.copy(), messages());
            timed(|| rust_tick(&mut copy, &mut rng, messages)).0
        },
        || {
            put_back(&mut work, &ours);
            timed(|| work.tick(&sends, &[], &[], 1, &mut out)).0
        },
    )
}

fn one_by_one(pending: usize) -> Row {
    let (rust, ours) = networks(pending);
    let mut rng = ChaCha8Rng::from_seed([0; 32]);
    let (mut work, mut out) = (ours.clone(), [0; 1_024]);
    both(
        format!("ten sends and a take in eleven calls, {pending} pending"),
        TIMES,
        || {
            let (mut copy, messages) = (rust.copy(), messages());
            timed(|| rust_tick(&mut copy, &mut rng, messages)).0
        },
        || {
            put_back(&mut work, &ours);
            let messages = ten();
            timed(|| {
                for (due, handle) in messages {
                    ours_send(&mut work, due, handle);
                }
                work.take_due(1, &mut out)
            })
            .0
        },
    )
}

/// A message's fate alone: ours decides it with no network, which the Rust can't.
fn fates() -> [Row; 2] {
    let perfect = NetworkOptions::perfect();
    let half = NetworkOptions {
        packet_loss_probability: 0.5,
        packet_replay_probability: 0.5,
        one_way_delay_min: 2,
        one_way_delay_mean: 10,
        fault_client_messages: false,
    };
    let kind = Kind::Prepare as u64;
    let draws = [1 << 63, 0];
    let extras = [5, 0];
    assert!(half.fate(10, kind, &draws, &extras).is_ok());
    [
        alone("fate, a perfect network", 2_000, || {
            perfect.fate(10, kind, &[], &[])
        }),
        alone("fate, replayed with two delays", 2_000, || {
            half.fate(10, kind, &draws, &extras)
        }),
    ]
}

/// The safe crate's network with so many in flight, all of them queued.
fn safe(pending: usize) -> bellmantle::Network<Message<Op>> {
    let mut network =
        bellmantle::Network::new(NetworkOptions::perfect()).expect("the options are good");
    for place in 0..=pending as u64 {
        let due = if place == 0 {
            0
        } else {
            1 + place * 7 % SPREAD
        };
        safe_send(&mut network, due, message(place));
    }
    // A take that has something due queues what was sent before it.
    assert_eq!(network.take_due(0).expect("there is room").len(), 1);
    network
}

fn safe_send(network: &mut bellmantle::Network<Message<Op>>, due: u64, message: Message<Op>) {
    let from = bellmantle::Origin::Replica(1);
    let sent = network.send(due, from, 2, Kind::PrepareOk, message, &[], &[]);
    assert_eq!(sent.expect("there is room").copies(), 1);
}

fn safe_tick(
    network: &mut bellmantle::Network<Message<Op>>,
    messages: Vec<(u64, Message<Op>)>,
) -> Vec<bellmantle::Envelope<Message<Op>>> {
    for (due, message) in messages {
        safe_send(network, due, message);
    }
    network.take_due(1).expect("there is room")
}

/// Ten sends and a take through the safe crate, bodies included; a fresh network each time.
fn posted(pending: usize) -> Row {
    let (mut rust, _) = networks(pending + 1);
    rust.take_due(0);
    let mut rng = ChaCha8Rng::from_seed([0; 32]);
    let mut copy = rust.copy();
    let mut network = safe(pending);
    let expected = rust_tick(&mut copy, &mut rng, messages());
    same_bodies(&expected, &safe_tick(&mut network, messages()));
    assert!(!expected.is_empty() && network.pending() == copy.pending());
    same_bodies(
        &copy.take_due(20),
        &network.take_due(20).expect("there is room"),
    );
    both(
        format!("ten sends and a take through the safe crate, {pending} pending"),
        TIMES / 4,
        || {
            let (mut copy, messages) = (rust.copy(), messages());
            timed(|| rust_tick(&mut copy, &mut rng, messages)).0
        },
        || {
            let (mut network, messages) = (safe(pending), messages());
            timed(|| safe_tick(&mut network, messages)).0
        },
    )
}

fn same_bodies(expected: &[Envelope], seen: &[bellmantle::Envelope<Message<Op>>]) {
    let told = |at: u64, due: u64, message: &Message<Op>| format!("{at} {due} {message:?}");
    let expected = expected
        .iter()
        .map(|e| told(e.sent_at, e.due_at, &e.message));
    let seen = seen.iter().map(|e| told(e.sent_at, e.due_at, &e.message));
    assert!(expected.eq(seen));
}

/// A send that can be undone; the Rust's way back is a copy made before.
fn journaled(pending: usize) -> Row {
    let (rust, ours) = networks(pending);
    let mut rng = ChaCha8Rng::from_seed([0; 32]);
    let mut work = ours.clone();
    let mut journal = vec![0; 2_048];
    both(
        format!("journaled send, {pending} pending; the Rust copies and sends"),
        TIMES,
        || {
            let mut network = rust.copy();
            let message = message(999);
            let (time, _back) = timed(|| {
                let back = network.copy();
                network.send(MIDDLE, Origin::Replica(1), 2, message, &mut rng);
                back
            });
            time
        },
        || {
            put_back(&mut work, &ours);
            journal[..2].copy_from_slice(&[0, 2]);
            let (time, sent) =
                timed(|| work.send_journaled(letter(MIDDLE, 999), &[], &[], &mut journal));
            assert!(sent.is_ok() && journal[0] == 1);
            time
        },
    )
}

/// So many sends undone, with 32 in flight before them; the Rust puts its copy back.
pub fn rewind_sends(k: usize) -> Row {
    let (rust, ours) = networks(32);
    let mut rng = ChaCha8Rng::from_seed([0; 32]);
    let mut journal = vec![0; 2_048];
    journal[1] = 2;
    let mut after = ours.clone();
    let sent: Vec<(u64, u64)> = (0..k as u64)
        .map(|place| (1 + place * 3 % SPREAD, 100 + place))
        .collect();
    for &(due, handle) in &sent {
        after
            .send_journaled(letter(due, handle), &[], &[], &mut journal)
            .expect("there is room");
    }
    let rust = || {
        let (mut network, back) = (rust.copy(), rust.copy());
        for &(due, handle) in &sent {
            network.send(due, Origin::Replica(1), 2, message(handle), &mut rng);
        }
        timed(|| network = back).0
    };
    let ours = rewound(&ours, after, journal, k as u64);
    both(format!("rewind of {k} sends"), TIMES, rust, ours)
}

/// A rewind over k calls from a network and its journal after them, back to the network before; the time of the call.
fn rewound(
    before: &Words,
    after: Words,
    mut journal: Vec<u64>,
    k: u64,
) -> impl FnMut() -> Duration + '_ {
    let header = [journal[0], journal[1]];
    let mut work = after.clone();
    move || {
        put_back(&mut work, &after);
        journal[..2].copy_from_slice(&header);
        let (time, back) = timed(|| work.rewind(k, &mut journal));
        assert!(back.is_ok() && work.records() == before.records() && work.head() == before.head());
        time
    }
}

/// Ten sends and a take undone; the Rust puts its copy back.
fn rewind(pending: usize) -> Row {
    let (rust, ours) = networks(pending);
    let mut rng = ChaCha8Rng::from_seed([0; 32]);
    let (mut journal, mut out) = (vec![0; 2_048], [0; 1_024]);
    journal[1] = 2;
    let mut after = ours.clone();
    for (due, handle) in ten() {
        after
            .send_journaled(letter(due, handle), &[], &[], &mut journal)
            .expect("there is room");
    }
    after
        .take_due_journaled(1, &mut out, &mut journal)
        .expect("there is room");
    let rust = || {
        let (mut network, back) = (rust.copy(), rust.copy());
        rust_tick(&mut network, &mut rng, messages());
        timed(|| network = back).0
    };
    let what =
        format!("rewind of ten sends and a take, {pending} pending; the Rust puts its copy back");
    both(what, TIMES, rust, rewound(&ours, after, journal, 11))
}
