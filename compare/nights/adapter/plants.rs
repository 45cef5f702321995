//! Faults, verdicts and the core over the proved library, in the place of three bodies of the simulator's lib.rs. The
//! simulator keeps its fields, as the rest of it reads and writes them: they are the library's words before a call and
//! after it.

use super::{Envelope, Fault, NetworkOptions, Simulator};
use crate::limits::refused;
use bellmantle::{Plants, Verdict};
use log::debug;
use rand::Rng;

/// Where the parts of a state begin: include/bellmantle.h.
const UP: usize = 1;
const PARTITIONED: usize = 16;
const STABLE: usize = 31;
const COUNTS: usize = 46;

/// The most plants, and the most picks that a choice uses.
const MOST_PLANTS: usize = 15;
const MOST_PICKS: usize = 2 * MOST_PLANTS;

pub(super) fn apply(simulator: &mut Simulator, fault: Fault) {
    debug!("tick {}: inject {fault}", simulator.ticks);
    let mut plants = read(simulator);
    // A reboot's nonce is the word that the simulator draws next.
    let draw = simulator.prng.clone().gen::<u64>();
    let nonce = plants
        .apply(simulator.ticks, ours(fault), &[draw])
        .unwrap_or_else(|r| refused(r));
    if let Fault::Reboot(id) = fault {
        assert_eq!(nonce, Some(draw));
        simulator.reboot_replica(id);
    }
    write(simulator, &plants);
}

pub(super) fn transition_to_liveness_mode(simulator: &mut Simulator) {
    simulator.liveness_mode = true;
    simulator.network.set_options(NetworkOptions::perfect());
    let mut room = [0; MOST_PICKS];
    let picks = picks(simulator, &mut room);
    let mut flags = [false; MOST_PLANTS];
    let recovering = &mut flags[..simulator.replicas.len()];
    for (flag, replica) in recovering.iter_mut().zip(&simulator.replicas) {
        *flag = replica.is_recovering();
    }
    let mut plants = read(simulator);
    let core = plants
        .choose_core(recovering, picks, simulator.options.full_core)
        .unwrap_or_else(|r| refused(r));
    write(simulator, &plants);
    debug!(
        "tick {}: transition to liveness mode, core={:?}",
        simulator.ticks, core.ids
    );
    simulator.core = core.ids;
}

/// The core's size, a shuffle of all plants and one of those that are not among the first quorum: every choice uses all
/// of these picks.
fn picks<'a>(simulator: &mut Simulator, room: &'a mut [u64; MOST_PICKS]) -> &'a [u64] {
    let n = simulator.options.replica_count;
    let quorum = n / 2 + 1;
    let mut count = 0;
    let mut pick = |pick: usize| {
        room[count] = pick as u64;
        count += 1;
    };
    if !simulator.options.full_core {
        pick(simulator.prng.gen_range(quorum..=n));
    }
    for i in (1..n).rev().chain((1..n - quorum).rev()) {
        pick(simulator.prng.gen_range(0..=i));
    }
    &room[..count]
}

pub(super) fn tick_network(simulator: &mut Simulator) {
    simulator.flush();
    let due = simulator.network.take_due(simulator.ticks);
    if !due.is_empty() {
        // A delivery changes no plant's state, so that all verdicts are asked for before the first of them.
        let mut told = std::mem::take(&mut simulator.network.told);
        let plants = read(simulator);
        let verdicts = plants.verdicts_in(simulator.network.taken(), &mut told);
        for (envelope, verdict) in due.into_iter().zip(verdicts.unwrap_or_else(|r| refused(r))) {
            deliver(simulator, verdict, envelope);
        }
        simulator.network.told = told;
    }
    simulator.flush();
}

fn deliver(simulator: &mut Simulator, verdict: Verdict, envelope: Envelope) {
    let Envelope { to, message, .. } = envelope;
    let ticks = simulator.ticks;
    match verdict {
        Verdict::ReceiverDown => debug!("tick {ticks}: drop {message:?} to crashed {to}"),
        Verdict::CutOff => debug!("tick {ticks}: drop {message:?} to {to}: partitioned"),
        Verdict::Deliver => {
            debug!("tick {ticks}: deliver {message:?} to {to}");
            simulator.replicas[to].on_message(message);
        }
    }
}

fn read(simulator: &Simulator) -> Plants {
    let n = simulator.options.replica_count;
    let mut words = [0; 49];
    words[0] = n as u64;
    for id in 0..n {
        words[UP + id] = u64::from(simulator.replica_up[id]);
        words[STABLE + id] = simulator.replica_stable_until[id];
    }
    for &id in &simulator.partitioned {
        words[PARTITIONED + id] = 1;
    }
    let counts = [simulator.crashes, simulator.restarts, simulator.reboots];
    words[COUNTS..].copy_from_slice(&counts.map(|count| count as u64));
    Plants::from_words(words)
}

fn write(simulator: &mut Simulator, plants: &Plants) {
    let words = plants.words();
    for (up, &word) in simulator.replica_up.iter_mut().zip(&words[UP..]) {
        *up = word == 1;
    }
    let ticks = simulator.replica_stable_until.iter_mut();
    ticks.zip(&words[STABLE..]).for_each(|(until, &word)| *until = word);
    simulator.partitioned.clear();
    let ids = 0..plants.count();
    simulator.partitioned.extend(ids.filter(|&id| words[PARTITIONED + id] == 1));
    let (crashes, restarts, reboots) = plants.counts();
    simulator.crashes = crashes as usize;
    simulator.restarts = restarts as usize;
    simulator.reboots = reboots as usize;
}

fn ours(fault: Fault) -> bellmantle::Fault {
    match fault {
        Fault::Crash(id) => bellmantle::Fault::Crash(id as u64),
        Fault::Restart(id) => bellmantle::Fault::Restart(id as u64),
        Fault::Reboot(id) => bellmantle::Fault::Reboot(id as u64),
        Fault::Partition(id) => bellmantle::Fault::Partition(id as u64),
        Fault::Heal(id) => bellmantle::Fault::Heal(id as u64),
        Fault::HealAll => bellmantle::Fault::HealAll,
    }
}
