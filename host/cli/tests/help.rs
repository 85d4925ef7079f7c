//! The help, where what it shows is what happens, and the version.

mod support;

use std::fs;
use support::{command, folder, outcome, prints, run};
use tigbayon::Refusal;

/// The commands that the help lists.
fn names() -> Vec<String> {
    let overall = prints(&["--help"]);
    let lines = overall.lines().skip_while(|line| *line != "Commands:");
    let listed = lines.skip(1).take_while(|line| !line.is_empty());
    let names = listed.map(|line| line.split_whitespace().next().unwrap());
    names.map(String::from).collect()
}

/// Every help there is.
fn helps() -> Vec<String> {
    let mut helps = vec![prints(&["--help"])];
    helps.extend(names().iter().map(|name| prints(&[name, "--help"])));
    helps
}

/// The examples of a help: the arguments of each, and what it prints.
fn examples(help: &str) -> Vec<(String, String)> {
    let (_, examples) = help.split_once("\nExamples:\n").expect("examples");
    let examples = examples.split("  $ tigbayon ").skip(1);
    examples
        .map(|example| {
            let (call, printed) = example.split_once('\n').unwrap();
            let lines = printed.trim_end().lines();
            let lines = lines.map(|line| format!("{}\n", line.strip_prefix("  ").unwrap_or(line)));
            (call.to_string(), lines.collect())
        })
        .collect()
}

/// The files that a help shows, by name.
fn files(help: &str) -> Vec<(String, String)> {
    let shown = help.split("\n\n").filter_map(|part| {
        let (said, contents) = part.split_once(" holds:\n")?;
        let lines = contents.lines().map(|line| line.trim_start().to_string());
        let name = said.split(' ').next_back()?;
        Some((name.to_string(), Vec::from_iter(lines).join("\n")))
    });
    shown.collect()
}

#[test]
fn every_example_prints_what_is_shown() {
    let folder = folder("help");
    let mut count = 0;
    for help in helps() {
        for (name, contents) in files(&help) {
            fs::write(folder.join(name), contents).unwrap();
        }
        let examples = examples(&help);
        assert!(!examples.is_empty(), "{help}");
        for (call, printed) in examples {
            let args = Vec::from_iter(call.split(' '));
            let done = outcome(command(&args).current_dir(&folder));
            assert_eq!(done.output + &done.error, printed, "{call}");
            let status = match printed.split(['\n', ' ']).next() {
                Some("refused") => 2,
                Some("not") => 4,
                _ => 0,
            };
            assert_eq!(done.status, status, "{call}");
            count += 1;
        }
    }
    assert!(count > 40, "{count} examples");
    for drawn in ["route.svg", "pixels.svg", "bars.svg"] {
        assert!(folder.join(drawn).exists());
    }
}

#[test]
fn every_way_to_ask() {
    let overall = prints(&["--help"]);
    assert_eq!(prints(&["help"]), overall);
    assert_eq!(prints(&["-h"]), overall);
    for name in names() {
        let help = prints(&[&name, "--help"]);
        assert_eq!(prints(&["help", &name]), help);
        assert_eq!(prints(&[&name, "-h"]), help);
        assert_eq!(prints(&[&name, "12", "--svg", "--help"]), help);
        let usage = format!("\nUsage: tigbayon {name} ");
        assert!(help.contains(&usage), "{help}");
    }
}

#[test]
fn the_version() {
    let version = format!("tigbayon {}\n", env!("CARGO_PKG_VERSION"));
    assert_eq!(prints(&["--version"]), version);
    assert!(prints(&["--help"]).contains("\n       tigbayon --version\n"));
}

#[test]
fn all_commands_are_listed() {
    let expected = "\
        gather scatter group decode butterfly inverse route compare pack unpack planes bytes \
        tile check excheck mix-left mix-right exchange despeckle run frame";
    assert_eq!(names().join(" "), expected);
    let listed = expected.replace(' ', ", ");
    assert!(run(&["turn"]).error.contains(&listed));
}

#[test]
fn exit_statuses_and_refusals_are_listed() {
    let overall = prints(&["--help"]);
    for status in 0..=4 {
        assert!(overall.contains(&format!("\n  {status}  ")), "{status}");
    }
    for refusal in Refusal::ALL {
        let number = refusal.number();
        assert!(overall.contains(&format!("\n  {number:>2}  ")), "{number}");
    }
}

#[test]
fn lines_are_short() {
    for help in helps() {
        for line in help.lines() {
            assert!(line.chars().count() <= 100, "{line}");
        }
    }
}
