//! The choice of the core, and the properties after a tick.

use crate::timing::{both, timed, Row};
use nights::original::properties::{
    CommitNumberMonotonic, CommittedPrefixAgreement, Durability, NoDuplicateOps, Property,
    SimContext,
};
use nights::state_machine::{Accumulator, Op, OpKind};
use nights::tracked::Judge;
use nights::{adapted, original};
use rand::SeedableRng;
use rand_chacha::ChaCha8Rng;
use vsr_rs::{Config, LogEntry, Message, Replica};

const TIMES: usize = 4_000;

pub fn rows() -> Vec<Row> {
    let mut rows = Vec::new();
    for plants in [5, 15] {
        rows.push(core(plants));
    }
    for plants in [5, 15] {
        rows.extend(properties(plants, 64, 65, "one new entry"));
        rows.extend(properties(plants, 0, 128, "128 new entries"));
    }
    rows
}

/// The whole transition, with its draws; what ours adds is the reading and writing of the simulator's fields.
fn core(plants: usize) -> Row {
    let mut seeds = (0.., 0..);
    let mut cores = (Vec::new(), Vec::new());
    let row = both(
        format!("core choice, {plants} plants"),
        TIMES,
        || {
            let seed = seeds.0.next().expect("seeds do not end");
            let mut prng = ChaCha8Rng::seed_from_u64(7);
            let mut options = original::Options::swarm(&mut prng);
            options.replica_count = plants;
            let mut simulator =
                original::Simulator::init(seed, options).expect("the options are good");
            let time = timed(|| simulator.transition_to_liveness_mode()).0;
            cores.0.push(simulator.core().to_vec());
            time
        },
        || {
            let seed = seeds.1.next().expect("seeds do not end");
            let mut prng = ChaCha8Rng::seed_from_u64(7);
            let mut options = adapted::Options::swarm(&mut prng);
            options.replica_count = plants;
            let mut simulator =
                adapted::Simulator::init(seed, options).expect("the options are good");
            let time = timed(|| simulator.transition_to_liveness_mode()).0;
            cores.1.push(simulator.core().to_vec());
            time
        },
    );
    assert_eq!(cores.0, cores.1);
    row
}

/// Plants that all hold a log of 128 entries and have committed so many.
fn cluster(plants: usize, commit: usize) -> Vec<Replica<Accumulator>> {
    let mut config = Config::new();
    for _ in 0..plants {
        config.add_replica();
    }
    let log: Vec<_> = (0..128).map(entry).collect();
    (0..plants)
        .map(|id| {
            let mut replica = Replica::new(id, config.clone(), Accumulator::default());
            replica.on_message(Message::StartView {
                view_number: 1,
                log: log.clone(),
                op_number: log.len(),
                commit_number: commit,
            });
            replica
        })
        .collect()
}

fn entry(index: u64) -> LogEntry<Op> {
    LogEntry {
        client_id: 1,
        request_number: index as usize,
        op: Op {
            id: index,
            kind: OpKind::Add(1),
        },
    }
}

/// The Rust's properties 1, 3, 4 and 6.
#[derive(Default)]
struct Rust(
    CommitNumberMonotonic,
    CommittedPrefixAgreement,
    NoDuplicateOps,
    Durability,
);

impl Rust {
    fn tick(&mut self, replicas: &[Replica<Accumulator>]) -> bool {
        let ctx = SimContext {
            tick: 1,
            replicas,
            replies: &[],
            core: &[0],
        };
        self.0.check(&ctx).is_ok()
            && self.1.check(&ctx).is_ok()
            && self.2.check(&ctx).is_ok()
            && self.3.check(&ctx).is_ok()
    }
}

/// So many entries newly committed by 5 plants, the words lent before.
pub fn new_entries(count: usize) -> Row {
    let [_, called] = properties(5, 0, count, "growing");
    called
}

/// A tick call after one that saw the plants earlier: with the words that it is lent, and the call alone.
fn properties(plants: usize, before: usize, after: usize, what: &str) -> [Row; 2] {
    let (before, after) = (cluster(plants, before), cluster(plants, after));
    let rust = || {
        let mut rust = Rust::default();
        assert!(rust.tick(&before));
        let (time, passed) = timed(|| rust.tick(&after));
        assert!(passed);
        time
    };
    let ours = || {
        let mut judge = Judge::new(plants);
        assert_eq!(judge.tick(&before), None);
        let (time, broken) = timed(|| judge.tick(&after));
        assert_eq!(broken, None);
        time
    };
    let called = || {
        let mut judge = Judge::new(plants);
        assert_eq!(judge.tick(&before), None);
        judge.lend(&after);
        let (time, broken) = timed(|| judge.call());
        assert_eq!(broken, None);
        time
    };
    let name = format!("properties, {plants} plants, {what}");
    [
        both(name.clone(), TIMES, rust, ours),
        both(
            format!("{name}, the words lent before"),
            TIMES,
            rust,
            called,
        ),
    ]
}
