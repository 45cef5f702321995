//! The network and its journal through the safe crate.

use bellmantle::{
    JournaledNetwork, Kind, Message, Network, NetworkOptions, Origin, Refusal, Sent, Words,
};

const HALF: u64 = 9_223_372_036_854_775_808;

fn half() -> NetworkOptions {
    NetworkOptions {
        packet_loss_probability: 0.5,
        packet_replay_probability: 0.5,
        one_way_delay_min: 2,
        one_way_delay_mean: 10,
        fault_client_messages: false,
    }
}

/// The rules' worked send: replayed, with extras 5 and 0.
fn send(network: &mut Network<&'static str>, body: &'static str) -> Result<Sent, Refusal> {
    let from = Origin::Replica(1);
    network.send(10, from, 2, Kind::Prepare, body, &[HALF, 0], &[5, 0])
}

#[test]
fn the_worked_run() {
    let mut network = Network::new(half()).unwrap();
    let sent = send(&mut network, "copper").unwrap();
    let told = Sent {
        lost: false,
        replayed: true,
        draws: 2,
        extras: 2,
    };
    assert_eq!(sent, told);
    assert_eq!(network.pending(), 2);
    let dues: Vec<u64> = network
        .in_flight()
        .map(|envelope| envelope.due_at)
        .collect();
    assert_eq!(dues, [12, 17]);
    assert_eq!(network.next_due(), Some(12));
    let taken = network.take_due(12).unwrap();
    assert_eq!(taken.len(), 1);
    assert_eq!(taken[0].message, "copper");
    assert_eq!((taken[0].from, taken[0].to), (Origin::Replica(1), 2));
    assert_eq!((taken[0].sent_at, taken[0].due_at), (10, 12));
    assert!(network.take_due(16).unwrap().is_empty());
    assert_eq!(network.take_due(17).unwrap()[0].message, "copper");
    assert_eq!(network.next_due(), None);
    let summary = network.summary();
    assert_eq!((summary.sent, summary.delivered), (1, 2));
    assert_eq!((summary.lost, summary.replayed, summary.delayed), (0, 1, 1));
}

#[test]
fn bodies_follow_their_messages() {
    let mut network = Network::new(NetworkOptions::perfect()).unwrap();
    for (tick, body) in [(3, "c"), (1, "a"), (2, "b")] {
        let from = Origin::Client(0);
        network
            .send(tick, from, 0, Kind::Request, body, &[], &[])
            .unwrap();
    }
    let bodies: Vec<&str> = network
        .take_due(2)
        .unwrap()
        .into_iter()
        .map(|envelope| envelope.message)
        .collect();
    assert_eq!(bodies, ["a", "b"]);
    let from = Origin::Client(0);
    network
        .send(9, from, 0, Kind::Request, "d", &[], &[])
        .unwrap();
    let last: Vec<&str> = network
        .in_flight()
        .map(|envelope| *envelope.message)
        .collect();
    assert_eq!(last, ["c", "d"]);
}

#[test]
fn refusals_change_nothing() {
    let mut network = Network::new(half()).unwrap();
    send(&mut network, "kept").unwrap();
    let before = network.summary();
    let from = Origin::Replica(1);
    let short = network.send(10, from, 2, Kind::Prepare, "x", &[HALF], &[5, 0]);
    assert_eq!(short, Err(Refusal::ShortDraws));
    let extras = network.send(10, from, 2, Kind::Prepare, "x", &[HALF, 0], &[5]);
    assert_eq!(extras, Err(Refusal::ShortExtras));
    let late = network.send(u64::MAX, from, 2, Kind::Prepare, "x", &[HALF, 0], &[5, 0]);
    assert_eq!(late, Err(Refusal::LateTick));
    let bad = NetworkOptions {
        packet_loss_probability: f64::NAN,
        ..half()
    };
    assert_eq!(network.set_options(bad.clone()), Err(Refusal::BadLoss));
    assert_eq!(network.options(), &half());
    assert_eq!(network.summary(), before);
    assert_eq!(network.pending(), 2);
    assert_eq!(Network::<()>::new(bad).err(), Some(Refusal::BadLoss));
}

#[test]
fn the_queue_has_a_limit() {
    let mut network = Network::new(NetworkOptions::perfect()).unwrap();
    let from = Origin::Client(0);
    for body in 0..Network::<usize>::CAPACITY {
        network
            .send(0, from, 0, Kind::Request, body, &[], &[])
            .unwrap();
    }
    let full = network.send(0, from, 0, Kind::Request, 128, &[], &[]);
    assert_eq!(full, Err(Refusal::Full));
    let bodies: Vec<usize> = network
        .take_due(0)
        .unwrap()
        .into_iter()
        .map(|envelope| envelope.message)
        .collect();
    assert_eq!(bodies, (0..128).collect::<Vec<usize>>());
}

fn message(now: u64, body: &'static str) -> Message<&'static str> {
    Message {
        now,
        from: Origin::Replica(1),
        to: 2,
        kind: Kind::Prepare,
        body,
    }
}

#[test]
fn a_tick_is_its_calls_one_after_the_other() {
    let mut network = Network::new(half()).unwrap();
    let messages = vec![
        message(10, "twice"),
        message(10, "lost"),
        message(4, "once"),
    ];
    let draws = [HALF, 0, 0, HALF, HALF];
    let ticked = network.tick(messages, &draws, &[5, 0, 0], 12).unwrap();
    assert_eq!((ticked.draws, ticked.extras), (5, 3));
    let due: Vec<&str> = ticked.due.iter().map(|envelope| envelope.message).collect();
    assert_eq!(due, ["once", "twice"]);
    let summary = network.summary();
    assert_eq!((summary.sent, summary.lost, summary.delivered), (3, 1, 2));
    assert_eq!(network.take_due(17).unwrap()[0].message, "twice");
}

#[test]
fn a_refused_tick_hands_its_messages_back() {
    let mut network = Network::new(half()).unwrap();
    let messages = vec![message(10, "a"), message(10, "b")];
    let refused = network
        .tick(messages, &[HALF, 0, HALF], &[5, 0], 12)
        .unwrap_err();
    assert_eq!((refused.refusal, refused.place), (Refusal::ShortDraws, 1));
    assert_eq!(refused.messages.len(), 2);
    assert_eq!((network.summary().sent, network.pending()), (0, 0));
}

#[test]
fn the_worked_rewind() {
    let mut network = JournaledNetwork::new(&half(), 64).unwrap();
    let from = Origin::Replica(1);
    network
        .send(10, from, 2, Kind::Prepare, "copper", &[HALF, 0], &[5, 0])
        .unwrap();
    let sent = network.words().clone();
    assert_eq!(network.take_due(12).unwrap().len(), 1);
    assert!(network.take_due(16).unwrap().is_empty());
    assert_eq!(network.journal()[..2], [3, 20]);
    network.rewind(2).unwrap();
    assert_eq!(network.journal()[..2], [1, 8]);
    assert_eq!(network.words().head(), sent.head());
    assert_eq!(network.words().records()[..], sent.records()[..]);
    assert_eq!(network.rewind(2), Err(Refusal::TooFar));
    network.mark().unwrap();
    assert_eq!(network.rewind(1), Err(Refusal::TooFar));
    assert_eq!(network.take_due(20).unwrap()[1].message, "copper");
    network.set_options(&NetworkOptions::perfect()).unwrap();
    network.rewind(2).unwrap();
    assert_eq!(network.summary().delivered, 0);
    assert_eq!(network.words().head()[3], 10);
}

#[test]
fn a_journal_has_room_or_refuses() {
    assert_eq!(
        JournaledNetwork::<()>::new(&half(), 1).err(),
        Some(Refusal::JournalFull)
    );
    let mut network = JournaledNetwork::new(&NetworkOptions::perfect(), 7).unwrap();
    let from = Origin::Client(0);
    let full = network.send(0, from, 0, Kind::Request, (), &[], &[]);
    assert_eq!(full, Err(Refusal::JournalFull));
    assert_eq!(network.summary().sent, 0);
}

#[test]
fn words_that_are_no_network() {
    let good = Words::new(&half()).unwrap();
    for place in [0, 1, 4] {
        let mut head = *good.head();
        head[place] = u64::MAX;
        let mut words = Words::from_parts(head, Box::new([0; 1024]));
        assert_eq!(words.pending(), Err(Refusal::IllFormed));
        assert_eq!(words.take_due(0, &mut []), Err(Refusal::IllFormed));
        assert_eq!(words.head(), &head);
    }
    let mut records = Box::new([0; 1024]);
    records[1023] = 1;
    let words = Words::from_parts(*good.head(), records);
    assert_eq!(words.pending(), Err(Refusal::IllFormed));
}
