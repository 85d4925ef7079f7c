//! Library, wrapper and model agree on arbitrary arguments, and every refusal
//! is reached. `src/bin/fuzz.rs` makes a longer run of it.

use conformance::fuzz::fuzz;
use conformance::samples::SEED;

/// Enough for every refusal number of every call, within a few seconds.
const CALLS: u64 = 478_000;

#[test]
fn every_call_on_arbitrary_arguments() {
    let tally = fuzz(CALLS, SEED);
    println!("{tally}");
    tally.assert_complete();
}
