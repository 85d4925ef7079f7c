//! Subwords of one word or of two.

use super::masks::WORD;
use crate::answer::Answer;
use crate::args::Given;
use crate::command::{Argument, Command, Example};
use crate::failure::Failure;
use crate::number::{hex, Base};
use tigbayon::Refusal;

const SIZE: Argument = Argument {
    name: "SIZE",
    about: "1, 2, 4, 8, 16 or 32; the bits of a subword",
};

const FIRST: Argument = Argument {
    name: "FIRST",
    about: "hexadecimal",
};

const SECOND: Argument = Argument {
    name: "SECOND",
    about: "hexadecimal",
};

const ARGUMENTS: &[Argument] = &[SIZE, FIRST, SECOND];

const NOTES: &[&str] = &["\
Subwords are counted from 0 at the left, which is even. In the examples 61 to 68 are the
letters a to h, and 41 to 48 the letters A to H.
"];

const REFUSALS: &[Refusal] = &[Refusal::Subword];

/// Check.
pub const CHECK: Command = Command {
    name: "check",
    about: "takes the even subwords of FIRST and the odd ones of SECOND",
    arguments: ARGUMENTS,
    options: &[],
    notes: NOTES,
    refusals: REFUSALS,
    examples: &[
        Example {
            call: "check 8 6162636465666768 4142434445464748",
            prints: "0x6142634465466748",
        },
        Example {
            call: "check 32 6162636465666768 4142434445464748",
            prints: "0x6162636445464748",
        },
        Example {
            call: "check 64 6162636465666768 4142434445464748",
            prints: "refused 12: subword size not 1, 2, 4, 8, 16, 32",
        },
    ],
    perform: |given| of_two(given, tigbayon::check),
};

/// Excheck.
pub const EXCHECK: Command = Command {
    name: "excheck",
    about: "does as check, then as exchange",
    arguments: ARGUMENTS,
    options: &[],
    notes: NOTES,
    refusals: REFUSALS,
    examples: &[Example {
        call: "excheck 8 6162636465666768 4142434445464748",
        prints: "0x4261446346654867",
    }],
    perform: |given| of_two(given, tigbayon::excheck),
};

/// Mix left.
pub const MIX_LEFT: Command = Command {
    name: "mix-left",
    about: "takes the even subwords of both in turn, that of FIRST first",
    arguments: ARGUMENTS,
    options: &[],
    notes: NOTES,
    refusals: REFUSALS,
    examples: &[
        Example {
            call: "mix-left 8 6162636465666768 4142434445464748",
            prints: "0x6141634365456747",
        },
        Example {
            call: "mix-left 16 6162636465666768 4142434445464748",
            prints: "0x6162414265664546",
        },
    ],
    perform: |given| of_two(given, tigbayon::mix_left),
};

/// Mix right.
pub const MIX_RIGHT: Command = Command {
    name: "mix-right",
    about: "takes the odd subwords of both in turn, that of FIRST first",
    arguments: ARGUMENTS,
    options: &[],
    notes: NOTES,
    refusals: REFUSALS,
    examples: &[Example {
        call: "mix-right 8 6162636465666768 4142434445464748",
        prints: "0x6242644466466848",
    }],
    perform: |given| of_two(given, tigbayon::mix_right),
};

/// Exchange.
pub const EXCHANGE: Command = Command {
    name: "exchange",
    about: "exchanges each even subword with the odd one to the right of it",
    arguments: &[SIZE, WORD],
    options: &[],
    notes: NOTES,
    refusals: REFUSALS,
    examples: &[
        Example {
            call: "exchange 8 6162636465666768",
            prints: "0x6261646366656867",
        },
        Example {
            call: "exchange 1 0x6",
            prints: "0x9",
        },
    ],
    perform: |given| {
        let size = given.argument(SIZE.name).number(Base::Decimal)?;
        let word = given.argument(WORD.name).number(Base::Hexadecimal)?;
        Ok(Answer::of(hex(tigbayon::exchange(size, word)?) + "\n"))
    },
};

fn of_two(
    given: &Given,
    call: fn(u32, u64, u64) -> Result<u64, Refusal>,
) -> Result<Answer, Failure> {
    let size = given.argument(SIZE.name).number(Base::Decimal)?;
    let first = given.argument(FIRST.name).number(Base::Hexadecimal)?;
    let second = given.argument(SECOND.name).number(Base::Hexadecimal)?;
    Ok(Answer::of(hex(call(size, first, second)?) + "\n"))
}
