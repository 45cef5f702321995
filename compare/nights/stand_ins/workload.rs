//! Stand-in for the simulator's workload.rs, which the checkout lacks: requests drawn at random.

use super::state_machine::OpKind;
use rand::Rng;
use rand_chacha::ChaCha8Rng;

/// Makes the clients' requests.
pub struct Workload;

impl Workload {
    /// Mostly sums, and now and then a new value, so that an order that is lost shows in the value.
    pub fn build_request(&self, prng: &mut ChaCha8Rng) -> OpKind {
        let amount = prng.gen_range(-1_000..=1_000);
        match prng.gen_bool(0.9) {
            true => OpKind::Add(amount),
            false => OpKind::Set(amount),
        }
    }
}
