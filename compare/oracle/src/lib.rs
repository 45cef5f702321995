//! The Rust that Bellmantle rewrites, unchanged, and readers of its answers.
//!
//! [`simulator`] is the checkout's simulator with stand-ins for the two files that the checkout lacks. Each
//! other module runs one part of it and tells the outcome in plain numbers.

include!(concat!(env!("OUT_DIR"), "/simulator.rs"));
include!(concat!(env!("OUT_DIR"), "/network_read.rs"));

pub mod network;
pub mod plants;
pub mod script;

// The simulator's files say `crate::state_machine`.
use simulator::state_machine;
