//! Faults, verdicts and the core, as the Rust's simulator has them. Plants are its replicas.

use crate::simulator::workload::{Access, Health};
use crate::simulator::{Fault, NetworkOptions, Options, Origin, Simulator};
use log::{Level, LevelFilter, Log, Metadata, Record};
use std::cell::RefCell;
use std::sync::Once;
use vsr_rs::Message;

/// The state of plants, in numbers. There are as many as `up` has flags.
#[derive(Clone, Debug, PartialEq, Eq)]
pub struct State {
    pub up: Vec<bool>,
    pub partitioned: Vec<bool>,
    pub stable_until: Vec<u64>,
    pub crashes: u64,
    pub restarts: u64,
    pub reboots: u64,
}

/// The core that the Rust chose, the state then, and how many of the lent words it drew.
pub struct Core {
    pub state: State,
    pub ids: Vec<usize>,
    pub words_used: usize,
}

/// A new simulator's state.
pub fn fresh(n: usize) -> State {
    let mut simulator = simulator(n, false);
    read(&mut simulator)
}

/// The state after a fault at a tick, and the nonce of a plant that rebooted: the one that it sends.
pub fn apply(state: &State, tick: u64, fault: Fault, words: &[u64]) -> (State, Option<u64>) {
    let mut simulator = simulator_in(state, false);
    simulator.ticks = tick;
    simulator.prng.lend(words);
    simulator.apply(fault);
    let nonce = match fault {
        Fault::Reboot(id) => Some(nonce_sent(&mut simulator, id)),
        _ => None,
    };
    (read(&mut simulator), nonce)
}

fn nonce_sent(simulator: &mut Simulator, id: usize) -> u64 {
    Access(simulator)
        .messages(id)
        .into_iter()
        .find_map(|message| match message {
            Message::Recovery { nonce, .. } => Some(nonce),
            _ => None,
        })
        .expect("a plant that reboots asks the others for the state")
}

/// The verdict on a message that is due, by what tick_network logs: 0 deliver, 1 receiver down, 2 cut off.
pub fn verdict(state: &State, from: Origin, to: usize) -> u64 {
    listen();
    let mut simulator = simulator_in(state, false);
    let mut access = Access(&mut simulator);
    // A plant that is not recovering makes nothing of it.
    let message = Message::RecoveryResponse {
        view_number: 0,
        nonce: 0,
        replica_id: 0,
        state: None,
    };
    access.send(from, to, message);
    HEARD.with(|heard| heard.borrow_mut().clear());
    access.tick_network();
    HEARD.with(|heard| match heard.borrow().as_slice() {
        [line] => verdict_of(line, to),
        lines => panic!("one verdict is due, not {lines:?}"),
    })
}

fn verdict_of(line: &str, to: usize) -> u64 {
    let deliver = line.contains(": deliver ") && line.ends_with(&format!(" to {to}"));
    let down = line.contains(": drop ") && line.ends_with(&format!(" to crashed {to}"));
    let cut_off = line.contains(": drop ") && line.ends_with(&format!(" to {to}: partitioned"));
    match (deliver, down, cut_off) {
        (true, false, false) => 0,
        (false, true, false) => 1,
        (false, false, true) => 2,
        _ => panic!("no verdict: {line}"),
    }
}

/// The core that is chosen where these plants are recovering, by lent words.
pub fn core(state: &State, recovering: &[bool], words: &[u64], full: bool) -> Core {
    let mut simulator = simulator(state.up.len(), full);
    for (id, _) in recovering.iter().enumerate().filter(|(_, &is)| is) {
        simulator.prng.lend(&[1]);
        simulator.apply(Fault::Reboot(id));
    }
    write(&mut simulator, state);
    simulator.prng.lend(words);
    simulator.transition_to_liveness_mode();
    Core {
        state: read(&mut simulator),
        ids: simulator.core().to_vec(),
        words_used: simulator.prng.used(),
    }
}

fn simulator_in(state: &State, full: bool) -> Simulator {
    let mut simulator = simulator(state.up.len(), full);
    write(&mut simulator, state);
    simulator
}

/// A new simulator of n plants, which no word is lent to yet.
pub fn simulator(n: usize, full: bool) -> Simulator {
    let options = Options {
        replica_count: n,
        client_count: 1,
        network: NetworkOptions::perfect(),
        requests_max: 1,
        request_probability: 1.0,
        request_idle_on_probability: 0.0,
        request_idle_off_probability: 1.0,
        heartbeat_interval: 1,
        replica_crash_probability: 0.0,
        replica_crash_stability: 0,
        replica_restart_probability: 0.0,
        replica_restart_stability: 0,
        replica_reboot_probability: 0.0,
        full_core: full,
        primary_timeout: 1,
    };
    Simulator::init(0, options).expect("the options are good")
}

fn write(simulator: &mut Simulator, state: &State) {
    let ids = 0..state.up.len();
    Access(simulator).set_health(Health {
        up: state.up.clone(),
        partitioned: ids.filter(|&id| state.partitioned[id]).collect(),
        stable_until: state.stable_until.clone(),
        crashes: state.crashes as usize,
        restarts: state.restarts as usize,
        reboots: state.reboots as usize,
    });
}

fn read(simulator: &mut Simulator) -> State {
    let health = Access(simulator).health();
    State {
        partitioned: (0..health.up.len())
            .map(|id| health.partitioned.contains(&id))
            .collect(),
        up: health.up,
        stable_until: health.stable_until,
        crashes: health.crashes as u64,
        restarts: health.restarts as u64,
        reboots: health.reboots as u64,
    }
}

thread_local! {
    /// The lines that the simulator logged on messages that were due.
    static HEARD: RefCell<Vec<String>> = const { RefCell::new(Vec::new()) };
}

struct Listener;

impl Log for Listener {
    fn enabled(&self, metadata: &Metadata) -> bool {
        metadata.level() <= Level::Debug
    }

    fn log(&self, record: &Record) {
        if self.enabled(record.metadata()) && record.target().ends_with("simulator") {
            let line = record.args().to_string();
            if line.contains(": deliver ") || line.contains(": drop ") {
                HEARD.with(|heard| heard.borrow_mut().push(line));
            }
        }
    }

    fn flush(&self) {}
}

fn listen() {
    static ONCE: Once = Once::new();
    ONCE.call_once(|| {
        log::set_logger(&Listener).expect("there is no other logger");
        log::set_max_level(LevelFilter::Debug);
    });
}
