//! What becomes of a night in which the library refuses a call.

use bellmantle::Refusal;
use std::panic::panic_any;

/// Leaves the night with the refusal: 29 or 60 where it passes a limit of ours, 48 where the Rust asserts. Any other is a
/// difference.
pub fn refused(refusal: Refusal) -> ! {
    panic_any(refusal)
}
