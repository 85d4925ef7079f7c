//! A longer run of the fuzz than the test's, or one of its calls again:
//! `cargo run --release --offline -p conformance --bin fuzz -- CALLS [SEED]`,
//! the seed in hexadecimal digits. Without one it is the time of day.
//!
//! Prints the seed, and for each call how often it was made and how often it
//! answered each refusal number.

use conformance::fuzz::fuzz;
use std::env;
use std::process::ExitCode;
use std::time::{SystemTime, UNIX_EPOCH};

fn main() -> ExitCode {
    let mut arguments = env::args().skip(1);
    let calls = arguments.next().and_then(|calls| calls.parse().ok());
    let seed = match arguments.next() {
        Some(seed) => u64::from_str_radix(seed.trim_start_matches("0x"), 16).ok(),
        None => Some(time_of_day()),
    };
    let (Some(calls), Some(seed)) = (calls, seed) else {
        eprintln!("usage: fuzz CALLS [SEED]");
        return ExitCode::FAILURE;
    };
    println!("{}", fuzz(calls, seed));
    ExitCode::SUCCESS
}

fn time_of_day() -> u64 {
    let since = SystemTime::now().duration_since(UNIX_EPOCH);
    since.map_or(0, |since| since.as_nanos() as u64)
}
