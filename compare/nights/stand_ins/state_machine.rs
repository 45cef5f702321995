//! Stand-in for the simulator's state_machine.rs, which the checkout lacks. Both simulators share one.

pub use crate::state_machine::*;
