//! One night: its seed, options and fault script, and a run of it on either simulator.

use crate::limits::refused;
use crate::lines::{heard, listen, Lines};
use crate::tracked::Tracked;
use crate::{adapted, original};
use bellmantle::Refusal;
use rand::{Rng, RngCore, SeedableRng};
use rand_chacha::ChaCha8Rng;
use std::any::Any;
use std::panic::{catch_unwind, AssertUnwindSafe};

/// A night's inputs. The options are drawn from the seed, as the simulator's own program does it.
#[derive(Clone, Debug)]
pub struct Night {
    pub seed: u64,
    pub requests: usize,
    pub full_core: bool,
    pub script: String,
}

/// Ticks without a reply, and ticks for the core to converge.
const TICKS: u64 = 4_000;

/// How a night ends.
#[derive(Clone, Debug, PartialEq, Eq)]
pub enum Verdict {
    Passed,
    Failed(String),
    /// The Rust asserts that a quorum is healthy, where ours refuses by 48.
    FewHealthy,
    Panicked(String),
    /// Ours refused a call: past a limit, or a difference.
    Refused(u64),
}

/// All that is compared of a night but its lines.
#[derive(Clone, Debug, PartialEq, Eq)]
pub struct End {
    pub verdict: Verdict,
    /// Every field of the simulator's own snapshot, with the messages in flight: absent where it stopped within a call.
    pub snapshot: Option<String>,
    pub phase: String,
    pub core: Vec<usize>,
    pub up: Vec<bool>,
    /// How far the generator was drawn, and what it draws next.
    pub generator: Option<(u128, u64)>,
    pub ticks: u64,
    pub crashes: usize,
    pub restarts: usize,
    pub reboots: usize,
    pub lost: usize,
    pub replayed: usize,
    pub delayed: usize,
}

impl Night {
    /// The night of a seed.
    pub fn of(seed: u64) -> Night {
        let mut prng = ChaCha8Rng::seed_from_u64(seed ^ 0x006e_6967_6874);
        let plants = options(seed).replica_count;
        Night {
            seed,
            requests: prng.gen_range(20..=100),
            full_core: prng.gen_bool(0.1),
            script: script(&mut prng, plants),
        }
    }

    /// How many plants there are.
    pub fn plants(&self) -> usize {
        options(self.seed).replica_count
    }
}

fn options(seed: u64) -> original::Options {
    original::Options::swarm(&mut ChaCha8Rng::seed_from_u64(seed))
}

/// A script of up to 12 faults, two nights in three; reboots are rarer, as a plant without memory counts as failed.
fn script(prng: &mut ChaCha8Rng, plants: usize) -> String {
    let events = prng.gen_range(0..=12) * usize::from(prng.gen_bool(0.67));
    let longest = *[50, 500, 3_000]
        .get(prng.gen_range(0..3))
        .expect("one of three");
    let mut text = String::from("# a night\n");
    for _ in 0..events {
        let tick: u64 = prng.gen_range(0..longest);
        let name = match prng.gen_range(0..20) {
            0..=5 => "crash",
            6..=9 => "restart",
            10..=11 => "reboot",
            12..=15 => "partition",
            16..=18 => "heal",
            _ => "heal-all",
        };
        let id = prng.gen_range(0..plants);
        text += &format!("{tick} {name} {id}\n");
    }
    text
}

/// The same code over each of the two simulators, whose types have the same names.
macro_rules! side {
    ($name:ident, $side:ident, $read:expr, $properties:expr) => {
        /// Runs a night with this simulator, silently.
        pub mod $name {
            use super::*;
            use crate::$side::{Fault, Limits, Options, Simulator};

            /// A simulator for a night.
            pub fn simulator(night: &Night) -> Simulator {
                let mut options = Options::swarm(&mut ChaCha8Rng::seed_from_u64(night.seed));
                options.requests_max = night.requests;
                options.full_core = night.full_core;
                let plants = options.replica_count;
                let mut simulator =
                    Simulator::init(night.seed, options).expect("swarm options are good");
                let set: fn(&mut Simulator, usize) = $properties;
                set(&mut simulator, plants);
                simulator
            }

            /// The night's faults.
            pub fn faults(night: &Night) -> Vec<(u64, Fault)> {
                let read: fn(&str) -> Vec<(u64, Fault)> = $read;
                read(&night.script)
            }

            /// Runs it to its end.
            pub fn run(simulator: &mut Simulator, faults: &[(u64, Fault)]) -> Verdict {
                let limits = Limits {
                    ticks_max_requests: TICKS,
                    ticks_max_convergence: TICKS,
                };
                match catch_unwind(AssertUnwindSafe(|| simulator.run_script(faults, limits))) {
                    Ok(Ok(())) => Verdict::Passed,
                    Ok(Err(error)) => Verdict::Failed(normal(&format!("{error:#}"))),
                    Err(payload) => stopped(payload),
                }
            }

            /// The end of a night and its lines, one of which may be wanted whole.
            pub fn listened(night: &Night, wanted: Option<usize>) -> (End, Lines) {
                listen(wanted);
                let mut simulator = simulator(night);
                let verdict = run(&mut simulator, &faults(night));
                let lines = heard();
                (end(&mut simulator, verdict), lines)
            }

            fn end(simulator: &mut Simulator, verdict: Verdict) -> End {
                let whole = matches!(verdict, Verdict::Passed | Verdict::Failed(_));
                let up = (0..simulator.options.replica_count)
                    .map(|id| simulator.is_up(id))
                    .collect();
                let summary = simulator.message_summary();
                End {
                    verdict,
                    snapshot: whole.then(|| format!("{:?}", simulator.snapshot())),
                    phase: format!("{:?}", simulator.phase()),
                    core: simulator.core().to_vec(),
                    up,
                    ticks: simulator.ticks,
                    crashes: simulator.crashes,
                    restarts: simulator.restarts,
                    reboots: simulator.reboots,
                    lost: summary.lost,
                    replayed: summary.replayed,
                    delayed: summary.delayed,
                    generator: whole
                        .then(|| (simulator.prng.get_word_pos(), simulator.prng.next_u64())),
                }
            }
        }
    };
}

side!(
    by_rust,
    original,
    |text| original::parse_script(text).expect("the scripts are good"),
    |_, _| ()
);
side!(
    by_ours,
    adapted,
    |text| {
        let script = bellmantle::parse_script(text.as_bytes());
        let events = script.unwrap_or_else(|error| refused(error.refusal));
        events
            .into_iter()
            .map(|(tick, fault)| (tick, ours(fault)))
            .collect()
    },
    |simulator, plants| simulator.set_properties(vec![Box::new(Tracked::new(plants))])
);

fn ours(fault: bellmantle::Fault) -> adapted::Fault {
    use adapted::Fault;
    match fault {
        bellmantle::Fault::Crash(id) => Fault::Crash(id as usize),
        bellmantle::Fault::Restart(id) => Fault::Restart(id as usize),
        bellmantle::Fault::Reboot(id) => Fault::Reboot(id as usize),
        bellmantle::Fault::Partition(id) => Fault::Partition(id as usize),
        bellmantle::Fault::Heal(id) => Fault::Heal(id as usize),
        bellmantle::Fault::HealAll => Fault::HealAll,
    }
}

fn stopped(payload: Box<dyn Any + Send>) -> Verdict {
    if let Some(refusal) = payload.downcast_ref::<Refusal>() {
        return match refusal {
            Refusal::FewHealthy => Verdict::FewHealthy,
            other => Verdict::Refused(other.number()),
        };
    }
    let text = match (
        payload.downcast_ref::<&str>(),
        payload.downcast_ref::<String>(),
    ) {
        (Some(text), _) => text.to_string(),
        (_, Some(text)) => text.clone(),
        _ => "something else".to_string(),
    };
    match text.contains("core.len() >= quorum") {
        true => Verdict::FewHealthy,
        false => Verdict::Panicked(text),
    }
}

/// The Rust's message of a broken property in the words that ours tells: property, tick, plant, and index or test.
fn normal(text: &str) -> String {
    let Some((property, what)) = text
        .strip_prefix("property '")
        .and_then(|rest| rest.split_once("' failed: "))
    else {
        return text.to_string();
    };
    let tests: &[&str] = match property {
        "commit-number-monotonic" => &[" != log length ", " > op_number ", " went backwards"],
        "convergence" => &[" log length ", " log differs ", " committed ", " value "],
        "committed-prefix-agreement" | "no-duplicate-ops" | "durability" => &[],
        _ => return text.to_string(),
    };
    let when = match what.split_once(": ") {
        Some((tick, _)) if tick.starts_with("tick ") => format!("{tick}: "),
        _ => String::new(),
    };
    let Some(plant) = number_after(what, "replica ") else {
        return text.to_string();
    };
    let place = match (
        tests.iter().position(|test| what.contains(test)),
        number_after(what, "at index "),
    ) {
        (Some(test), _) => format!("test {}", test + 1),
        (None, Some(index)) => format!("index {index}"),
        // Ours, as it is.
        (None, None) => return text.to_string(),
    };
    format!("property '{property}' failed: {when}replica {plant}, {place}")
}

fn number_after(text: &str, before: &str) -> Option<u64> {
    let (_, rest) = text.split_once(before)?;
    let digits = rest.split(|c: char| !c.is_ascii_digit()).next()?;
    digits.parse().ok()
}
