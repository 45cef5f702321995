//! Fault scripts compared: what is asked of a reader of scripts, the scripts that it is asked about, the test of its answers, and the
//! sample of them.

pub mod comments;
pub mod comparison;
pub mod corners;
pub mod expected;
pub mod inputs;
pub mod numbers;
pub mod planted;
pub mod rules;
pub mod sample;
pub mod words;
