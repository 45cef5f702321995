//! What the comparisons share: a call of the library as data, with what is expected of it; such calls run and compared word by word,
//! or written down as a sample; arguments, tallies and random numbers; and what a network's calls are made of.

pub use bellmantle::raw;

pub mod arguments;
pub mod case;
pub mod draws;
pub mod nets;
pub mod rows;
pub mod run;
pub mod sample;
pub mod tally;
