//! Times the library's calls beside peers in plain Rust, by the size of their
//! inputs, and runs by the kind of their operations.
//!
//! `cargo run --release --offline -p bench` runs every bench; an argument
//! picks those whose name contains it.
//!
//! The library's calls cross the C boundary and so cannot be inlined into the
//! timing loop. A peer is kept out of it likewise: what is compared is one call
//! with one call.
//!
//! `-p bench -- count CALL CALLS [SIZE]` times nothing: it makes the call so many
//! times on random inputs of this one of its sizes or else the largest, which are
//! made even if that is 0, for a tool that counts instructions. `-p bench -- count`
//! prints the names of the calls.

mod bmi2;
mod contest;
mod decoding;
mod frames;
mod groups;
mod growth;
mod masks;
mod networks;
mod packing;
mod pixels;
mod planes;
mod routing;
mod subwords;
mod table;
mod tiles;
mod timing;
mod twin;
mod unit;
mod waiting;

use growth::GROWTHS;
use std::env;
use std::process::ExitCode;

/// The width of every contest that names no other.
const WIDTH: u32 = 64;

/// A contest runs the call of its name.
type Bench = (&'static str, fn(&str));

const CONTESTS: [Bench; 32] = [
    ("butterfly", networks::butterfly),
    ("inverse", networks::inverse),
    ("prepare_butterfly", networks::prepare_butterfly),
    ("prepare_inverse", networks::prepare_inverse),
    ("butterfly_prepared", networks::butterfly_prepared),
    ("inverse_prepared", networks::inverse_prepared),
    ("decode", decoding::decode),
    ("gather", masks::gather),
    ("scatter", masks::scatter),
    ("group", masks::group),
    ("route", routing::route),
    ("route_butterfly", routing::route_butterfly),
    ("route_inverse", routing::route_inverse),
    ("route_groups", groups::route_groups),
    ("pack", packing::pack),
    ("unpack", packing::unpack),
    ("to_planes", planes::to_planes),
    ("from_planes", planes::from_planes),
    ("tile_transpose", tiles::transpose),
    ("tile_turn_left", tiles::turn_left),
    ("tile_turn_right", tiles::turn_right),
    ("tile_mirror_columns", tiles::mirror_columns),
    ("tile_mirror_rows", tiles::mirror_rows),
    ("check", subwords::check),
    ("excheck", subwords::excheck),
    ("mix_left", subwords::mix_left),
    ("mix_right", subwords::mix_right),
    ("exchange", subwords::exchange),
    ("despeckle", pixels::despeckle),
    ("run", waiting::run),
    ("continue", waiting::continue_run),
    ("frame", frames::frame),
];

const BY_MASK: &str = "by mask";

fn main() -> ExitCode {
    let arguments: Vec<String> = env::args().skip(1).collect();
    let arguments: Vec<&str> = arguments.iter().map(String::as_str).collect();
    let done = match arguments[..] {
        [] => run(""),
        ["count"] => {
            growth::names().for_each(|name| println!("{name}"));
            Some(())
        }
        [wanted] => run(wanted),
        ["count", call, calls] => count(call, calls, None),
        ["count", call, calls, size] => count(call, calls, Some(size)),
        _ => None,
    };
    if done.is_none() {
        eprintln!(
            "usage: bench [NAME | count [CALL CALLS [SIZE]]]; there are {}",
            names().join(", ")
        );
        return ExitCode::FAILURE;
    }
    ExitCode::SUCCESS
}

/// The names of all benches.
fn names() -> Vec<&'static str> {
    let contests = CONTESTS.iter().map(|(name, _)| *name);
    let growths = GROWTHS.iter().map(|growth| growth.name);
    contests.chain([BY_MASK]).chain(growths).collect()
}

/// Runs the benches whose name contains this; none if there are none.
fn run(wanted: &str) -> Option<()> {
    names().iter().find(|name| name.contains(wanted))?;
    let mut contests = CONTESTS
        .iter()
        .filter(|(name, _)| name.contains(wanted))
        .peekable();
    if contests.peek().is_some() {
        contest::print_heading();
    }
    for (name, run) in contests {
        run(name);
    }
    if BY_MASK.contains(wanted) {
        masks::by_mask();
    }
    let growths = GROWTHS.iter().filter(|growth| growth.name.contains(wanted));
    growths.for_each(growth::Growth::print);
    Some(())
}

/// Makes this call so many times, if there is such a call.
fn count(call: &str, calls: &str, size: Option<&str>) -> Option<()> {
    let calls = calls.parse().ok()?;
    let size = size.map(str::parse).transpose().ok()?;
    growth::by_name(call, size)?.make(calls);
    Some(())
}
