//! The plants, their core and the cluster properties through the safe crate.

use bellmantle::raw::{plants, record};
use bellmantle::{
    Broken, Core, Fault, Kind, Message, Network, NetworkOptions, Origin, Plants, Property, Refusal,
    Snapshot, Tracker, Verdict,
};

#[test]
fn faults_and_verdicts() {
    let mut plants = Plants::new(3).unwrap();
    assert_eq!(plants.apply(7, Fault::Crash(1), &[]), Ok(None));
    assert_eq!((plants.is_up(1), plants.stable_until(1)), (false, 7));
    let from = Origin::Replica(0);
    assert_eq!(plants.verdict(from, 1), Ok(Verdict::ReceiverDown));
    assert_eq!(plants.apply(8, Fault::Reboot(1), &[42]), Ok(Some(42)));
    assert_eq!(plants.apply(8, Fault::Partition(0), &[]), Ok(None));
    assert_eq!(plants.verdict(from, 1), Ok(Verdict::CutOff));
    assert_eq!(plants.verdict(Origin::Client(99), 1), Ok(Verdict::Deliver));
    assert!(plants.is_partitioned(0));
    assert_eq!(plants.apply(9, Fault::HealAll, &[]), Ok(None));
    assert_eq!(plants.verdict(from, 1), Ok(Verdict::Deliver));
    assert_eq!(plants.counts(), (1, 1, 1));
}

/// Five plants, of which 1 is down and 2 is cut off.
fn five_plants() -> Plants {
    let mut plants = Plants::new(5).unwrap();
    plants.apply(3, Fault::Crash(1), &[]).unwrap();
    plants.apply(4, Fault::Partition(2), &[]).unwrap();
    plants
}

/// A network that takes all that is sent at a tick, with a message from each sender to each plant sent and taken.
fn taken() -> Network<u64> {
    let mut network = Network::new(NetworkOptions::perfect()).unwrap();
    let senders = [Origin::Replica(0), Origin::Replica(2), Origin::Client(99)];
    let messages = senders.into_iter().flat_map(|from| {
        (0..5).map(move |to| Message {
            now: 7,
            from,
            to,
            kind: Kind::Prepare,
            body: to,
        })
    });
    let ticked = network.tick(messages.collect(), &[], &[], 7).unwrap();
    assert_eq!(ticked.due.len(), 15);
    network
}

#[test]
fn the_verdicts_on_a_take_are_those_on_its_messages() {
    let (plants, mut network) = (five_plants(), taken());
    let verdicts = plants.verdicts(network.taken()).unwrap();
    assert_eq!(verdicts.len(), 15);
    for (words, verdict) in network.taken().chunks_exact(8).zip(verdicts) {
        let from = match words[record::SORT] {
            0 => Origin::Replica(words[record::ORIGIN]),
            _ => Origin::Client(words[record::ORIGIN]),
        };
        assert_eq!(plants.verdict(from, words[record::TO]), Ok(verdict));
    }
    assert_eq!(network.take_due(8).unwrap(), []);
    assert_eq!(plants.verdicts(network.taken()), Ok(Vec::new()));
}

#[test]
fn the_first_refusal_of_a_take_is_told() {
    let (good, network) = (five_plants(), taken());
    let forged = |place: usize, word: u64| {
        let mut words = *good.words();
        words[place] = word;
        Plants::from_words(words)
    };
    let mut records = network.taken().to_vec();
    assert_eq!(good.verdicts(&records[1..]), Err(Refusal::ShortOutput));
    records[8 * 9 + record::SORT] = 2;
    assert_eq!(good.verdicts(&records), Err(Refusal::BadMessage));
    records[8 * 4 + record::TO] = 5;
    assert_eq!(good.verdicts(&records), Err(Refusal::UnknownPlant));
    // The state is asked with the first record, behind its sort; and alone where there is none.
    for (state, refusal) in [
        (forged(plants::N, 16), Refusal::PlantCount),
        (forged(plants::UP + 5, 1), Refusal::BadPlants),
    ] {
        assert_eq!(state.verdicts(&records), Err(refusal));
        assert_eq!(state.verdicts(&records[8 * 9..]), Err(Refusal::BadMessage));
        assert_eq!(state.verdicts(&[]), Err(refusal));
    }
}

#[test]
fn refused_faults_change_nothing() {
    let mut plants = Plants::new(3).unwrap();
    let before = plants.clone();
    let unknown = plants.apply(0, Fault::Crash(3), &[]);
    assert_eq!(unknown, Err(Refusal::UnknownPlant));
    let dry = plants.apply(0, Fault::Reboot(0), &[]);
    assert_eq!(dry, Err(Refusal::NoNonce));
    assert_eq!(plants, before);
    assert_eq!(Plants::new(2), Err(Refusal::PlantCount));
    let mut words = *before.words();
    words[1] = 2;
    let mut forged = Plants::from_words(words);
    assert_eq!(
        forged.apply(0, Fault::Heal(0), &[]),
        Err(Refusal::BadPlants)
    );
    assert_eq!(forged.words(), &words);
}

#[test]
fn the_worked_cores() {
    for (last, ids) in [(0, [0, 1, 2, 3]), (1, [1, 2, 3, 4])] {
        let mut plants = Plants::new(5).unwrap();
        let recovering = [true, false, false, false, false];
        let core = plants.choose_core(&recovering, &[4, 4, 3, 2, 1, last], false);
        let chosen = Core {
            ids: ids.to_vec(),
            picks: 6,
        };
        assert_eq!(core, Ok(chosen));
        assert_eq!(plants.counts(), (1, 0, 0));
    }
    let mut plants = Plants::new(3).unwrap();
    let short = plants.choose_core(&[false; 3], &[99], false);
    assert_eq!(short, Err(Refusal::ShortPicks));
}

/// Three plants with one entry, committed by the first `commits`.
fn snapshot(commits: usize, bodies: [u64; 3]) -> Snapshot {
    let mut snapshot = Snapshot::new(3);
    for (id, body) in bodies.into_iter().enumerate() {
        snapshot.set_plant(id, false, u64::from(id < commits), 1, 1);
        snapshot.set_entry(id, 0, [7, 1, 100, body]);
    }
    snapshot
}

#[test]
fn a_night_that_passes_and_converges() {
    let mut tracker = Tracker::new(3).unwrap();
    assert_eq!(tracker.tick(&snapshot(1, [5, 5, 5])), Ok(None));
    assert_eq!(tracker.tick(&snapshot(3, [5, 5, 5])), Ok(None));
    let end = tracker.end(&snapshot(3, [5, 5, 5]), &[1, 1, 1], &[0, 1, 2]);
    assert_eq!(end, Ok(None));
    let apart = tracker.end(&snapshot(3, [5, 5, 5]), &[1, 1, 2], &[0, 1, 2]);
    let broken = apart.unwrap().unwrap();
    assert_eq!((broken.property, broken.plant), (Property::Convergence, 2));
    tracker.reboot(2).unwrap();
    assert_eq!(tracker.reboot(3), Err(Refusal::UnknownPlant));
}

#[test]
fn a_break_leaves_the_tracker() {
    let mut tracker = Tracker::new(3).unwrap();
    let before = tracker.clone();
    let broken = Broken {
        property: Property::CommittedPrefixAgreement,
        plant: 1,
        index: 0,
        test: 1,
    };
    assert_eq!(tracker.tick(&snapshot(2, [5, 6, 5])), Ok(Some(broken)));
    assert_eq!(tracker, before);
    let wrong = tracker.tick(&Snapshot::new(4));
    assert_eq!(wrong, Err(Refusal::BadSnapshot));
    assert_eq!(Tracker::new(16).err(), Some(Refusal::PlantCount));
}
