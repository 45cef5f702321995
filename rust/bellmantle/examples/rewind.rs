//! A journaled network whose calls are undone.
//!
//! `cargo run --example rewind`

use bellmantle::{JournaledNetwork, Kind, NetworkOptions, Origin, Refusal};

fn main() -> Result<(), Refusal> {
    let options = NetworkOptions {
        one_way_delay_min: 2,
        one_way_delay_mean: 4,
        ..NetworkOptions::perfect()
    };
    let mut network = JournaledNetwork::new(&options, 256)?;
    let from = Origin::Replica(0);
    for (body, extra) in [("first", 3), ("second", 0)] {
        network.send(10, from, 1, Kind::Prepare, body, &[], &[extra])?;
    }
    let sent = network.words().clone();

    // The second message is due first, as its extra is less.
    let taken = network.take_due(12)?;
    assert_eq!(taken.len(), 1);
    println!("at tick 12: {} is taken", taken[0].message);
    network.set_options(&NetworkOptions::perfect())?;
    println!("{:?}", network.summary());

    // Both calls are undone: the network is word for word what it was.
    network.rewind(2)?;
    assert_eq!(network.words().head(), sent.head());
    assert_eq!(network.words().records(), sent.records());
    println!("undone: {:?}", network.summary());

    // What follows goes on from there.
    let bodies: Vec<&str> = network
        .take_due(15)?
        .into_iter()
        .map(|envelope| envelope.message)
        .collect();
    assert_eq!(bodies, ["second", "first"]);
    println!("at tick 15: {bodies:?} are taken");

    // No rewind goes past a mark.
    network.mark()?;
    assert_eq!(network.rewind(1), Err(Refusal::TooFar));
    Ok(())
}

#[test]
fn calls_are_undone() {
    main().unwrap();
}
