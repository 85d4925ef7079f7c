//! What `--help` and `--version` print.

use crate::command::{Command, Example};
use crate::commands::COMMANDS;
use crate::failure::{condition, CONDITIONS, STATUSES};

const ABOUT: &str = "\
Tigbayon: gathers, scatters, groups, permutes and packs bits, takes bytes to bit planes,
turns tiles, mixes subwords and despeckles planes of pixels, by a library that is proved.

Usage: tigbayon COMMAND ARGUMENTS [OPTIONS]
       tigbayon COMMAND --help, or tigbayon help COMMAND
       tigbayon --version
";

const NOTES: &str = "\
Bits are counted from 0 at the right. Words, masks, controls and the enable byte are
hexadecimal, with 0x or without; all other numbers are decimal. Lists have commas between
their entries, or spaces if quoted. In controls one means pass, zero means swap. The width
is w for short.
";

const EXAMPLES: [Example; 3] = [
    Example {
        call: "gather 8 0xAD 0xB6",
        prints: "0x1A 5",
    },
    Example {
        call: "route 8 0,4,2,3,1,5,6,7",
        prints: "butterfly 0xD,0xF,0xF\ninverse   0xB,0xF,0xD",
    },
    Example {
        call: "gather 12 0xAD 0xB6",
        prints: "refused 1: width not 8, 16, 32, 64",
    },
];

/// The version, which is the library's.
pub fn version() -> String {
    format!("tigbayon {}\n", env!("CARGO_PKG_VERSION"))
}

/// The help of the whole.
pub fn overall() -> String {
    let commands = COMMANDS.iter().copied();
    let listed = commands.map(|command| (usage(command), command.about.to_string()));
    let statuses = STATUSES.map(|(status, about)| (status.to_string(), about.to_string()));
    let refusals = (1..).zip(CONDITIONS).map(numbered);
    let parts = [
        ABOUT.to_string(),
        table("Commands", listed),
        NOTES.to_string(),
        table("Exit status", statuses),
        table("Refusals, on the standard error", refusals),
        examples(&EXAMPLES),
    ];
    parts.join("\n")
}

/// The help of a command.
pub fn of(command: &Command) -> String {
    let (name, about) = (command.name, command.about);
    let called = usage(command);
    let options = if command.options.is_empty() {
        ""
    } else {
        " [OPTIONS]"
    };
    let arguments = command.arguments.iter();
    let arguments =
        arguments.map(|argument| (argument.name.to_string(), argument.about.to_string()));
    let choices = command.choices();
    let choices = choices.map(|choice| (choice.typed(), choice.about.to_string()));
    let refusals = command.refusals.iter();
    let refusals = refusals.map(|&refusal| numbered((refusal.number(), condition(refusal))));
    let parts = [
        format!("tigbayon {name}: {about}\n"),
        format!("Usage: tigbayon {called}{options}\n"),
        table("Arguments", arguments),
        table("Options", choices),
        command.notes.join("\n"),
        table("Refusals", refusals),
        examples(command.examples),
    ];
    let said = parts.into_iter().filter(|part| !part.is_empty());
    Vec::from_iter(said).join("\n")
}

/// A command with its arguments.
fn usage(command: &Command) -> String {
    let arguments = command.arguments.iter().map(|argument| argument.name);
    let words = [command.name].into_iter().chain(arguments);
    Vec::from_iter(words).join(" ")
}

fn numbered((number, condition): (u8, &str)) -> (String, String) {
    (format!("{number:>2}"), condition.to_string())
}

/// Rows under a heading; nothing if there are none.
fn table(heading: &str, rows: impl IntoIterator<Item = (String, String)>) -> String {
    let rows: Vec<(String, String)> = rows.into_iter().collect();
    let Some(width) = rows.iter().map(|(name, _)| name.len()).max() else {
        return String::new();
    };
    let lines = rows
        .iter()
        .map(|(name, about)| format!("  {name:<width$}  {about}\n"));
    format!("{heading}:\n{}", String::from_iter(lines))
}

/// Calls, each with what it prints below it.
fn examples(examples: &[Example]) -> String {
    let shown = examples.iter().map(|Example { call, prints }| {
        let lines = prints.lines().map(|line| format!("  {line}"));
        let lines = lines.map(|line| format!("{}\n", line.trim_end()));
        format!("  $ tigbayon {call}\n{}", String::from_iter(lines))
    });
    format!("Examples:\n{}", Vec::from_iter(shown).join("\n"))
}
