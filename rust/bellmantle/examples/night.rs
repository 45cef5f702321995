//! A night in short: a fault script is parsed, messages go through a network, and each tick's faults, sends and deliveries are told.
//!
//! `cargo run --example night`

use bellmantle::{parse_script, Kind, Message, Network, NetworkOptions, Origin, Plants, Verdict};

const SCRIPT: &[u8] = b"2 crash 1    # the east plant
4 restart 1
6 partition 2
8 heal-all
";

fn main() -> Result<(), Box<dyn std::error::Error>> {
    let script = parse_script(SCRIPT)?;
    let mut plants = Plants::new(3)?;
    let mut network = Network::new(NetworkOptions {
        packet_loss_probability: 0.25,
        one_way_delay_min: 1,
        one_way_delay_mean: 2,
        ..NetworkOptions::perfect()
    })?;
    for tick in 0..10 {
        for (_, fault) in script.iter().filter(|(at, _)| *at == tick) {
            plants.apply(tick, *fault, &[tick])?;
            println!("{tick}: {fault}");
        }
        // Two messages a tick. A host lends what its generator draws: here every fourth word is a loss.
        let messages = vec![message(tick, 1, "prepare"), message(tick, 2, "commit")];
        let draws = [tick << 62, (tick + 1) << 62];
        let ticked = network
            .tick(messages, &draws, &[tick % 3, 0], tick)
            .map_err(|refused| refused.refusal)?;
        for envelope in ticked.due {
            let verdict = match plants.verdict(envelope.from, envelope.to)? {
                Verdict::Deliver => "delivered",
                Verdict::ReceiverDown => "dropped, the receiver is down",
                Verdict::CutOff => "dropped, cut off",
            };
            let (body, to) = (envelope.message, envelope.to);
            println!(
                "{tick}: {body} of tick {} to {to}: {verdict}",
                envelope.sent_at
            );
        }
    }
    let summary = network.summary();
    println!("{summary:?}, {} in flight", network.pending());
    assert_eq!(summary.sent, 20);
    assert_eq!(plants.counts(), (1, 1, 0));
    Ok(())
}

fn message(now: u64, to: u64, body: &'static str) -> Message<&'static str> {
    Message {
        now,
        from: Origin::Replica(0),
        to,
        kind: Kind::Prepare,
        body,
    }
}

#[test]
fn a_night_ends() {
    main().unwrap();
}
