//! The library's calls from the command line, and drawings of networks, groups, planes and
//! frames.
//!
//! `tigbayon --help` lists the commands.

mod answer;
mod args;
mod bank;
mod command;
mod commands;
mod drawing;
mod failure;
mod frames;
mod groups;
mod help;
mod network;
mod number;
mod paths;
mod picture;
mod plane;
mod schedule;
mod turns;

use answer::Answer;
use args::Given;
use command::Command;
use failure::Failure;
use std::env;
use std::ffi::OsString;
use std::io::{self, Write};
use std::process::ExitCode;

/// What asks for help, as the first argument or among those of a command.
const HELP: [&str; 2] = ["--help", "-h"];

/// What asks for the version, as the only argument.
const VERSION: &str = "--version";

fn main() -> ExitCode {
    let outcome = read(env::args_os().skip(1)).and_then(|args| answer(&args));
    match outcome.and_then(Answer::deliver) {
        Ok(status) => status,
        Err(failure) => {
            // If this cannot be written either, the exit status still tells.
            let _ = writeln!(io::stderr(), "{failure}");
            failure.status()
        }
    }
}

/// The arguments as text.
fn read(args: impl Iterator<Item = OsString>) -> Result<Vec<String>, Failure> {
    let text = |arg: OsString| {
        let unread = |arg: OsString| Failure::argument(format!("{arg:?} is not UTF-8"));
        arg.into_string().map_err(unread)
    };
    args.map(text).collect()
}

/// The answer of the command line.
fn answer(args: &[String]) -> Result<Answer, Failure> {
    let Some((first, rest)) = args.split_first() else {
        return Err(Failure::argument("COMMAND is missing".to_string()));
    };
    match first.as_str() {
        VERSION => match rest {
            [] => Ok(Answer::of(help::version())),
            [surplus, ..] => Err(Failure::surplus(surplus)),
        },
        first if first == "help" || HELP.contains(&first) => match rest {
            [] => Ok(Answer::of(help::overall())),
            [name] => Ok(Answer::of(help::of(commands::find(name)?))),
            [_, surplus, ..] => Err(Failure::surplus(surplus)),
        },
        name => perform(commands::find(name)?, rest),
    }
}

/// The answer of a command to its arguments.
fn perform(command: &'static Command, args: &[String]) -> Result<Answer, Failure> {
    if args.iter().any(|arg| HELP.contains(&arg.as_str())) {
        return Ok(Answer::of(help::of(command)));
    }
    let given = Given::read(command, args);
    let answer = given.and_then(|given| (command.perform)(&given));
    answer.map_err(|failure| failure.of(command.name))
}
