//! Gather, scatter and group.

use crate::answer::Answer;
use crate::args::Given;
use crate::command::{Argument, Command, Example, MASK, WIDTH};
use crate::failure::Failure;
use crate::number::{hex, Base};
use tigbayon::{Gathered, Refusal};

/// The word that a command works on.
pub const WORD: Argument = Argument {
    name: "WORD",
    about: "hexadecimal",
};

const ARGUMENTS: &[Argument] = &[WIDTH, MASK, WORD];

const NOTES: &[&str] = &["Prints the word, and the count of marked bits in decimal.\n"];

const REFUSALS: &[Refusal] = &[Refusal::Width, Refusal::Above];

/// Gather.
pub const GATHER: Command = Command {
    name: "gather",
    about: "brings the marked bits to the right in order, zeros above",
    arguments: ARGUMENTS,
    options: &[],
    notes: NOTES,
    refusals: REFUSALS,
    examples: &[
        Example {
            call: "gather 8 0xAD 0xB6",
            prints: "0x1A 5",
        },
        Example {
            call: "gather 64 0FFF0FFF0FFF0FFF 0123045607890ABC",
            prints: "0x123456789ABC 48",
        },
        Example {
            call: "gather 8 0xAD 0x100",
            prints: "refused 2: word or mask has a one at bit w or above",
        },
    ],
    perform: |given| by_mask(given, tigbayon::gather),
};

/// Scatter.
pub const SCATTER: Command = Command {
    name: "scatter",
    about: "takes the bits from the right to the marked places, zeros between",
    arguments: ARGUMENTS,
    options: &[],
    notes: NOTES,
    refusals: REFUSALS,
    examples: &[Example {
        call: "scatter 8 0xAD 0x1A",
        prints: "0xA4 5",
    }],
    perform: |given| by_mask(given, tigbayon::scatter),
};

/// Group.
pub const GROUP: Command = Command {
    name: "group",
    about: "brings the marked bits to the right, the others to the left, in order",
    arguments: ARGUMENTS,
    options: &[],
    notes: NOTES,
    refusals: REFUSALS,
    examples: &[
        Example {
            call: "group 8 0xAD 0xB6",
            prints: "0x7A 5",
        },
        Example {
            call: "group 64 FFFFFFFFFFFFFFFF 5",
            prints: "0x5 64",
        },
    ],
    perform: |given| by_mask(given, tigbayon::group),
};

fn by_mask(
    given: &Given,
    call: fn(u32, u64, u64) -> Result<Gathered, Refusal>,
) -> Result<Answer, Failure> {
    let width = given.argument("WIDTH").number(Base::Decimal)?;
    let mask = given.argument("MASK").number(Base::Hexadecimal)?;
    let word = given.argument("WORD").number(Base::Hexadecimal)?;
    let Gathered { count, word } = call(width, mask, word)?;
    Ok(Answer::of(format!("{} {count}\n", hex(word))))
}
