//! Whole nights of the Rust's simulator, unchanged, beside the same simulator over the proved library.
//!
//! [`original`] is the checkout's; [`adapted`] is its text with the network, the faults, the verdicts and the core replaced
//! (`adapter/`), and [`tracked`] its properties. [`night`] runs either of them, and [`lines`] listens to what they log.

include!(concat!(env!("OUT_DIR"), "/original.rs"));
include!(concat!(env!("OUT_DIR"), "/adapted.rs"));
include!(concat!(env!("OUT_DIR"), "/extended.rs"));

pub mod limits;
pub mod lines;
pub mod night;
pub mod state_machine;
pub mod tracked;
