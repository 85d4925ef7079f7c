//! Where answers go.

mod support;

use std::fs;
use std::process::Stdio;
use support::{command, folder, list, outcome, prints, run};

const SWAPPED: [&str; 3] = ["route", "8", "0,4,2,3,1,5,6,7"];

const UNALIKE: [&str; 5] = ["compare", "8", "0xF", "0xE", "--inverse"];

#[test]
fn svg_goes_to_a_file_or_to_the_output() {
    let file = folder("output").join("route.svg");
    let name = file.to_str().unwrap();
    let controls = prints(&SWAPPED);
    let drawn = prints(&[&SWAPPED[..], &["--svg", "-"]].concat());
    assert!(drawn.starts_with("<svg xmlns="));
    assert_eq!(prints(&[&SWAPPED[..], &["--svg", name]].concat()), controls);
    assert_eq!(fs::read_to_string(&file).unwrap(), drawn);

    let text = prints(&[&SWAPPED[..], &["--text"]].concat());
    let both = [&SWAPPED[..], &["--text", "--bit=6", "--svg", name]].concat();
    assert_ne!(prints(&both), text, "another bit is followed");
    assert_ne!(fs::read_to_string(&file).unwrap(), drawn);
}

/// The picture in the repository's README is the one that the command draws.
#[test]
fn the_picture_of_row_8() {
    let drawn = prints(&[&SWAPPED[..], &["--svg", "-"]].concat());
    assert_eq!(drawn, include_str!("../../../docs/row8.svg"));
}

#[test]
fn a_file_that_cannot_be_written() {
    let file = folder("unwritten").join("missing").join("route.svg");
    let outcome = run(&[&SWAPPED[..], &["--svg", file.to_str().unwrap()]].concat());
    assert_eq!((outcome.status, outcome.output.as_str()), (3, ""));
    assert!(
        outcome.error.starts_with("cannot write "),
        "{}",
        outcome.error
    );
}

/// A reader that closes the output early, as `head` does, is no failure.
#[test]
fn a_closed_output() {
    let permutation: Vec<u8> = (0..64).rev().collect();
    for (args, status) in [
        (["route", "64", &list(&permutation), "--svg", "-"], 0),
        (UNALIKE, 4),
    ] {
        let mut command = command(&args);
        let child = command.stdout(Stdio::piped()).stderr(Stdio::piped());
        let mut child = child.spawn().unwrap();
        drop(child.stdout.take());
        let done = child.wait_with_output().unwrap();
        assert_eq!(done.status.code(), Some(status));
        assert!(done.stderr.is_empty());
    }
}

#[cfg(target_os = "linux")]
#[test]
fn a_full_output() {
    for args in [&SWAPPED[..], &UNALIKE] {
        let full = fs::File::options().write(true).open("/dev/full").unwrap();
        let done = outcome(command(args).stdout(full));
        assert_eq!(done.status, 3);
        assert!(done.error.starts_with("cannot write the standard output: "));
    }
}
