//! Tables of the library's times: a line for each call, a column for each sort
//! of input.

use crate::timing::{medians, Calls};
use std::fmt::Display;
use std::iter::zip;

/// Prints what stands over the lines: what the nanoseconds are by and of, and
/// the columns.
pub fn print_heading(by: &str, each: &str, columns: impl IntoIterator<Item = impl Display>) {
    print!("\n{:<28}", format!("{by}, ns/{each}"));
    for column in columns {
        print!(" {column:>8}");
    }
    println!(" {:>16}", "slowest/fastest");
}

/// Prints a call's line. Beside the calls of each column stands how many parts
/// one has.
pub fn print_line(name: &str, columns: &[(Calls, usize)]) {
    let medians = medians(columns.iter().map(|(calls, _)| calls));
    let times = zip(columns, medians).map(|((_, parts), median)| median / *parts as f64);
    let times: Vec<f64> = times.collect();
    print!("{name:<28}");
    for time in &times {
        print!(" {time:>8.2}");
    }
    let slowest = times.iter().copied().fold(0.0, f64::max);
    let fastest = times.iter().copied().fold(f64::INFINITY, f64::min);
    println!(" {:>16.2}", slowest / fastest);
}
