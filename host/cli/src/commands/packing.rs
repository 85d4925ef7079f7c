//! Pack and unpack.

use crate::answer::Answer;
use crate::args::Given;
use crate::command::{Argument, Choice, Command, Example, MASK};
use crate::failure::Failure;
use crate::number::{hex_list, Base};
use std::ops::Range;
use tigbayon::{Packed, Refusal};

/// The options that lend the words to write into.
const OUT: [&str; 2] = ["--out", "--length"];

/// A list of more than 2,048 words is refused, whatever its length and words.
pub const TOO_LONG: usize = 2049;

/// The same, with what they mean.
pub const OUT_CHOICES: [Choice; 2] = [
    Choice::valued(OUT[0], "WORDS", "the words to write into, hexadecimal"),
    Choice::valued(
        OUT[1],
        "N",
        "write into N words of zero; else as many as needed",
    ),
];

const NOTES: &str = "\
Prints how many bits are packed or unpacked and the count of marked bits, in decimal,
then all words of the list that is written into.
";

const SPARE_NOTES: &str = "\
The bits of the last word read that belong to no field are spare, and must be zero;
words after it are not looked at.
";

const A: Argument = Argument {
    name: "A",
    about: "decimal; the first word of the range",
};

const B: Argument = Argument {
    name: "B",
    about: "decimal; the word after the last one of the range",
};

/// Pack.
pub const PACK: Command = Command {
    name: "pack",
    about: "lays the gathered bits of words A to B-1 end to end",
    arguments: &[
        MASK,
        Argument {
            name: "WORDS",
            about: "hexadecimal; the words to gather from",
        },
        A,
        B,
    ],
    options: &[&OUT_CHOICES],
    notes: &[NOTES],
    refusals: &[Refusal::Range, Refusal::Short],
    examples: &[
        Example {
            call: "pack 0xFFF 1,2,3,4,5,0x9A6 0 6",
            prints: "72 bits, count 12\n0x6005004003002001,0x9A",
        },
        Example {
            call: "pack 0xFFF 1,2,3,4,5,0x9A6 0 2 --out 7,7",
            prints: "24 bits, count 12\n0x2001,0x7",
        },
        Example {
            call: "pack 0xFFF 1,2,3,4,5,0x9A6 0 6 --length 1",
            prints: "refused 10: the other list of words shorter than its bits need",
        },
    ],
    perform: |given| {
        let enough = |mask: u64, words: &[u64], range: Range<usize>| {
            let count = range.end.min(words.len()).saturating_sub(range.start);
            let bits = mask.count_ones() as usize * count;
            bits.div_ceil(u64::BITS as usize)
        };
        between_lists(given, "WORDS", tigbayon::pack, enough)
    },
};

/// Unpack.
pub const UNPACK: Command = Command {
    name: "unpack",
    about: "scatters bits that lie end to end into words A to B-1",
    arguments: &[
        MASK,
        Argument {
            name: "PACKED",
            about: "hexadecimal; the words that hold the bits",
        },
        A,
        B,
    ],
    options: &[&OUT_CHOICES],
    notes: &[NOTES, SPARE_NOTES],
    refusals: &[Refusal::Range, Refusal::Short, Refusal::Spare],
    examples: &[
        Example {
            call: "unpack 0xFFF 0x6005004003002001,0x9A 0 6",
            prints: "72 bits, count 12\n0x1,0x2,0x3,0x4,0x5,0x9A6",
        },
        Example {
            call: "unpack 0xFFF 0x2001 1 3 --out 7,7,7,7",
            prints: "24 bits, count 12\n0x7,0x1,0x2,0x7",
        },
        Example {
            call: "unpack 0xFFF 0x6005004003002001,0x19A 0 6",
            prints: "refused 11: a spare bit of the last packed word read is one",
        },
    ],
    perform: |given| {
        let enough = |_: u64, _: &[u64], range: Range<usize>| range.end;
        between_lists(given, "PACKED", tigbayon::unpack, enough)
    },
};

/// A call that reads one list of words and writes into another.
type Call = fn(u64, &[u64], Range<usize>, &mut [u64]) -> Result<Packed, Refusal>;

/// Makes the call on the words of this name and those that are lent.
fn between_lists(
    given: &Given,
    name: &str,
    call: Call,
    enough: impl Fn(u64, &[u64], Range<usize>) -> usize,
) -> Result<Answer, Failure> {
    let mask = given.argument("MASK").number(Base::Hexadecimal)?;
    let words: Vec<u64> = given.argument(name).numbers(Base::Hexadecimal)?;
    let a = given.argument("A").number(Base::Decimal)?;
    let b = given.argument("B").number(Base::Decimal)?;
    let mut out = out(given, || enough(mask, &words, a..b))?;
    let Packed { count, bits } = call(mask, &words, a..b, &mut out)?;
    let written = match out.as_slice() {
        [] => String::new(),
        words => hex_list(words) + "\n",
    };
    Ok(Answer::of(format!("{bits} bits, count {count}\n{written}")))
}

/// The words to write into.
pub fn out(given: &Given, enough: impl FnOnce() -> usize) -> Result<Vec<u64>, Failure> {
    given.at_most_one(OUT)?;
    if let Some(words) = given.option(OUT[0]) {
        return words.numbers(Base::Hexadecimal);
    }
    let length = match given.option(OUT[1]) {
        Some(length) => length.number(Base::Decimal)?,
        None => enough(),
    };
    Ok(vec![0; length.min(TOO_LONG)])
}
