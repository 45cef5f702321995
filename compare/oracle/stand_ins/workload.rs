//! Stand-in for the simulator's workload.rs, which the checkout lacks: the least that the simulator needs to
//! compile. As a child of the simulator's root it is also the place for code that must reach the
//! simulator's private parts: [`Access`] sets and reads its state, and calls what is private. It decides
//! nothing itself.

use super::network::Network;
use super::state_machine::{Op, OpKind};
use super::{NetworkOptions, Origin, Simulator};
use rand_chacha::ChaCha8Rng;
use std::collections::BTreeSet;
use vsr_rs::Message;

/// Makes the clients' requests.
pub struct Workload;

impl Workload {
    pub fn build_request(&self, _prng: &mut ChaCha8Rng) -> OpKind {
        OpKind::Add(1)
    }
}

/// The state of the replicas, of a simulator.
#[derive(Clone, Debug, PartialEq, Eq)]
pub struct Health {
    pub up: Vec<bool>,
    pub partitioned: BTreeSet<usize>,
    pub stable_until: Vec<u64>,
    pub crashes: usize,
    pub restarts: usize,
    pub reboots: usize,
}

/// What is private in a simulator.
pub struct Access<'a>(pub &'a mut Simulator);

impl Access<'_> {
    pub fn set_health(&mut self, health: Health) {
        self.0.replica_up = health.up;
        self.0.partitioned = health.partitioned;
        self.0.replica_stable_until = health.stable_until;
        self.0.crashes = health.crashes;
        self.0.restarts = health.restarts;
        self.0.reboots = health.reboots;
    }

    pub fn health(&self) -> Health {
        Health {
            up: self.0.replica_up.clone(),
            partitioned: self.0.partitioned.clone(),
            stable_until: self.0.replica_stable_until.clone(),
            crashes: self.0.crashes,
            restarts: self.0.restarts,
            reboots: self.0.reboots,
        }
    }

    /// The messages that a replica wants sent.
    pub fn messages(&mut self, id: usize) -> Vec<Message<Op>> {
        self.0.replicas[id]
            .drain_messages()
            .map(|(_, message)| message)
            .collect()
    }

    /// Puts a message alone in the network, due now.
    pub fn send(&mut self, from: Origin, to: usize, message: Message<Op>) {
        self.0.network = Network::new(NetworkOptions::perfect());
        let now = self.0.ticks;
        self.0
            .network
            .send(now, from, to, message, &mut self.0.prng);
    }

    pub fn tick_network(&mut self) {
        self.0.tick_network();
    }
}
