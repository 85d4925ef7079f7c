//! Runs the command line.

#![allow(dead_code, reason = "no test file uses all of it")]

pub mod areas;
pub mod drawn;
pub mod elements;
pub mod frames;
pub mod groups;
pub mod wires;

use std::fs;
use std::io::Write;
use std::path::{Path, PathBuf};
use std::process::{Command, Output, Stdio};

/// What a command line did.
#[derive(Debug, PartialEq, Eq)]
pub struct Outcome {
    /// The exit status.
    pub status: i32,
    /// What it printed.
    pub output: String,
    /// What it printed to the standard error.
    pub error: String,
}

impl Outcome {
    /// Asserts that the arguments were not read, and that the message holds these words
    /// and the hint.
    pub fn assert_unread(&self, words: &str) {
        let Outcome {
            status,
            output,
            error,
        } = self;
        assert_eq!((*status, output.as_str()), (1, ""), "{error}");
        assert!(error.contains(words), "{words}: {error}");
        let hint = error.lines().last().unwrap();
        assert!(hint.starts_with("see tigbayon"), "{error}");
        assert!(hint.ends_with("--help"), "{error}");
    }
}

/// The command line, with these arguments.
pub fn command(args: &[&str]) -> Command {
    let mut command = Command::new(env!("CARGO_BIN_EXE_tigbayon"));
    command.args(args);
    command
}

/// Runs a command.
pub fn outcome(command: &mut Command) -> Outcome {
    read(command.output().unwrap())
}

/// Runs the command line with these arguments, on this standard input.
pub fn run_on(args: &[&str], input: &str) -> Outcome {
    let mut command = command(args);
    let outputs = command.stdout(Stdio::piped()).stderr(Stdio::piped());
    let mut child = outputs.stdin(Stdio::piped()).spawn().unwrap();
    // It need not be read where the arguments are not.
    let _ = child.stdin.take().unwrap().write_all(input.as_bytes());
    read(child.wait_with_output().unwrap())
}

fn read(done: Output) -> Outcome {
    let [output, error] = [done.stdout, done.stderr].map(|text| String::from_utf8(text).unwrap());
    let status = done.status.code().unwrap();
    Outcome {
        status,
        output,
        error,
    }
}

/// Runs the command line with these arguments.
pub fn run(args: &[&str]) -> Outcome {
    outcome(&mut command(args))
}

/// Runs it with the arguments of this line, no one of which holds a space.
pub fn run_line(line: &str) -> Outcome {
    run(&Vec::from_iter(line.split(' ')))
}

/// What a call that is carried out prints.
pub fn prints(args: &[&str]) -> String {
    let outcome = run(args);
    assert_eq!(
        (outcome.status, outcome.error.as_str()),
        (0, ""),
        "{args:?}"
    );
    outcome.output
}

/// Asserts that the arguments are not read, and that the message holds these
/// words and the hint.
pub fn assert_unread(args: &[&str], words: &str) {
    run(args).assert_unread(words);
}

/// An empty folder for the files of the test of this name.
pub fn folder(name: &str) -> PathBuf {
    let folder = Path::new(env!("CARGO_TARGET_TMPDIR")).join(name);
    if folder.exists() {
        fs::remove_dir_all(&folder).unwrap();
    }
    fs::create_dir_all(&folder).unwrap();
    folder
}

/// Numbers as a list.
pub fn list(numbers: &[u8]) -> String {
    Vec::from_iter(numbers.iter().map(u8::to_string)).join(",")
}

/// Words as a list.
pub fn hex_list(words: &[u64]) -> String {
    let words = words.iter().map(|word| format!("{word:x}"));
    Vec::from_iter(words).join(",")
}

/// The words of a list that was printed.
pub fn read_words(printed: &str) -> Vec<u64> {
    let words = printed.trim_end().split(',');
    let words = words.map(|word| word.strip_prefix("0x").unwrap());
    words
        .map(|word| u64::from_str_radix(word, 16).unwrap())
        .collect()
}
