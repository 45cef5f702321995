//! Safe Rust over the proved library, with the names of the simulator whose judging parts it stands for: fault scripts
//! ([`parse_script`]), the [`Network`] and its journal ([`JournaledNetwork`]), the [`Plants`] with their core, and the cluster
//! properties ([`Tracker`]). Draws, delays and picks are lent by the caller, and message bodies stay with it: the library sees
//! handles alone. [`raw`] has the library's calls as they are, over words.
//!
//! Every call ends with an answer or a [`Refusal`], and after a refusal everything is as it was.

#![deny(unsafe_code)]
#![deny(unsafe_op_in_unsafe_fn)]
#![deny(missing_docs)]

mod bodies;
mod journal;
mod network;
mod plants;
mod posted;
mod properties;
#[allow(unsafe_code)]
pub mod raw;
mod refusal;
mod script;
#[allow(missing_docs, unsafe_code)]
mod sys;
mod words;

pub use journal::JournaledNetwork;
pub use network::{
    Envelope, Fate, Kind, Message, MessageSummary, Network, NetworkOptions, Origin, Sent,
    TickRefused, Ticked,
};
pub use plants::{Core, Plants, Verdict};
pub use properties::{Broken, Property, Snapshot, Tracker};
pub use raw::{EVENT_WORDS, LOG_ENTRIES};
pub use refusal::Refusal;
pub use script::{parse_script, parse_script_into, Fault, FaultScript, Flaw, ScriptError, Why};
pub use words::Words;
