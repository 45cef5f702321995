//! What the network is after the calls that stand, by a rule that runs no queue: each send's fate is decided by the
//! options that stand then, its copies are numbered in the order of making, and a copy is pending exactly if no later
//! take that stands names its due tick or a later one.

use crate::fate::{fate, Letter};
use crate::plain::{Network, Record};
use calls::nets::Options;

/// A call that was accepted and not rewound, with what was lent to it.
#[derive(Clone, Debug)]
pub enum Call {
    Send {
        letter: Letter,
        draws: Vec<u64>,
        extras: Vec<u64>,
    },
    Take(u64),
    Choose(Options),
}

/// For each call, the latest tick that a later take names.
fn latest_takes(calls: &[Call]) -> Vec<Option<u64>> {
    let mut latest = None;
    let mut ticks: Vec<Option<u64>> = Vec::new();
    for call in calls.iter().rev() {
        ticks.push(latest);
        if let Call::Take(now) = call {
            latest = latest.max(Some(*now));
        }
    }
    ticks.reverse();
    ticks
}

/// The network after these calls on a fresh one of those options.
pub fn network(first: Options, calls: &[Call]) -> Network {
    let mut network = Network::fresh(first);
    let mut copies: Vec<(Record, Option<u64>)> = Vec::new();
    for (call, latest) in calls.iter().zip(latest_takes(calls)) {
        match call {
            Call::Take(_) => {}
            Call::Choose(options) => network.options = *options,
            Call::Send {
                letter,
                draws,
                extras,
            } => {
                let fate = fate(network.options, letter, draws, extras)
                    .expect("a send that stands was accepted");
                for due in &fate.dues {
                    let seq = copies.len() as u64 + 1;
                    copies.push((letter.copy(*due, seq), latest));
                }
                network.sent += 1;
                network.lost += u64::from(fate.is_lost());
                network.replayed += u64::from(fate.is_replayed());
                network.delayed += fate.delayed;
            }
        }
    }
    let is_pending =
        |record: &Record, latest: &Option<u64>| latest.map_or(true, |tick| tick < record[0]);
    network.seq = copies.len() as u64;
    copies.retain(|(record, latest)| is_pending(record, latest));
    network.delivered = network.seq - copies.len() as u64;
    network.pending = copies.into_iter().map(|(record, _)| record).collect();
    network.pending.sort();
    network
}
