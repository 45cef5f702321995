//! The Rust's protocol library, unchanged, under the name by which its simulator knows it.

include!(concat!(env!("OUT_DIR"), "/protocol.rs"));

pub use protocol::*;
