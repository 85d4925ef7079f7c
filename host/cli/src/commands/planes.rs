//! Bit planes.

use crate::answer::Answer;
use crate::args::{unexpected, Given};
use crate::command::{Argument, Choice, Command, Example};
use crate::failure::Failure;
use crate::number::{hex_list, Base};
use crate::picture::{side_by_side, Picture};

const WORDS: &str = "WORDS..";
const PLANES_GIVEN: &str = "PLANES..";

/// The options that draw planes: all of them, or one.
const DRAWN: [&str; 2] = ["--text", "--plane"];

const NOTES: &str = "\
Byte n is byte n % 8 of word n / 8, byte 0 of a word being its lowest eight bits. Bit n
of plane p is bit p of byte n. Nothing is refused.
";

const DRAWN_NOTES: &str = "\
In a drawing row k of a plane has the bits of the bytes of word k, byte 0 first: # is one,
and . is zero.
";

/// Bytes to planes.
pub const PLANES: Command = Command {
    name: "planes",
    about: "takes sixty-four bytes, in eight words, to eight bit planes",
    arguments: &[Argument {
        name: WORDS,
        about: "eight, hexadecimal; bytes 0 to 7 from the right, then 8 to 15, ..",
    }],
    options: &[&[
        Choice::flag(DRAWN[0], "draw the planes in characters"),
        Choice::valued(DRAWN[1], "P", "draw plane P, from 0 to 7, alone"),
    ]],
    notes: &[NOTES, DRAWN_NOTES],
    refusals: &[],
    examples: &[
        Example {
            call: "planes 0x81,0x30000,0,0,0,0,0,0",
            prints: "0x401,0x400,0x0,0x0,0x0,0x0,0x0,0x1",
        },
        Example {
            call: "planes 706050403020100,F0E0D0C0B0A0908,0,0,0,0,0,0 --text",
            prints: "\
plane 0   plane 1   plane 2   plane 3   plane 4   plane 5   plane 6   plane 7
.#.#.#.#  ..##..##  ....####  ........  ........  ........  ........  ........
.#.#.#.#  ..##..##  ....####  ########  ........  ........  ........  ........
........  ........  ........  ........  ........  ........  ........  ........
........  ........  ........  ........  ........  ........  ........  ........
........  ........  ........  ........  ........  ........  ........  ........
........  ........  ........  ........  ........  ........  ........  ........
........  ........  ........  ........  ........  ........  ........  ........
........  ........  ........  ........  ........  ........  ........  ........",
        },
        Example {
            call: "planes 0 8000000 808080000 80808080800 0 0 0 0 --plane 3",
            prints: "\
plane 3
........
...#....
..###...
.#####..
........
........
........
........",
        },
    ],
    perform: planes,
};

/// Planes to bytes.
pub const BYTES: Command = Command {
    name: "bytes",
    about: "takes eight bit planes back to sixty-four bytes, in eight words",
    arguments: &[Argument {
        name: PLANES_GIVEN,
        about: "eight, hexadecimal; plane 0, which has the lowest bits, first",
    }],
    options: &[],
    notes: &[NOTES],
    refusals: &[],
    examples: &[
        Example {
            call: "bytes 0x401,0x400,0,0,0,0,0,0x1",
            prints: "0x81,0x30000,0x0,0x0,0x0,0x0,0x0,0x0",
        },
        Example {
            call: "bytes 0 0 0 0 0 FF 0 0",
            prints: "0x2020202020202020,0x0,0x0,0x0,0x0,0x0,0x0,0x0",
        },
    ],
    perform: |given| {
        let words = tigbayon::from_planes(&eight(given, PLANES_GIVEN)?);
        Ok(Answer::of(hex_list(&words) + "\n"))
    },
};

fn planes(given: &Given) -> Result<Answer, Failure> {
    let planes = tigbayon::to_planes(&eight(given, WORDS)?);
    let output = match plane(given)? {
        Some(p) => drawn(&planes, &[p]),
        None if given.has(DRAWN[0]) => drawn(&planes, &[0, 1, 2, 3, 4, 5, 6, 7]),
        None => hex_list(&planes) + "\n",
    };
    Ok(Answer::of(output))
}

/// The argument of this name, which has eight words.
fn eight(given: &Given, name: &str) -> Result<[u64; 8], Failure> {
    let text = given.argument(name);
    let words: Vec<u64> = text.numbers(Base::Hexadecimal)?;
    let count = words.len();
    words.try_into().map_err(|_| {
        let expected = format!("eight words, not {count}");
        unexpected(name, text.text(), &expected)
    })
}

/// The number of the plane to draw alone, if one is asked for.
fn plane(given: &Given) -> Result<Option<usize>, Failure> {
    let Some(text) = given.option(DRAWN[1]) else {
        return Ok(None);
    };
    let p = text.number(Base::Decimal)?;
    if p > 7 {
        let expected = "a plane, from 0 to 7";
        return Err(unexpected(DRAWN[1], text.text(), expected));
    }
    Ok(Some(p))
}

/// These planes in characters, side by side.
fn drawn(planes: &[u64; 8], numbers: &[usize]) -> String {
    let pictures = numbers.iter().map(|&p| Picture {
        name: format!("plane {p}"),
        rows: rows(planes[p]),
    });
    side_by_side(&Vec::from_iter(pictures))
}

/// Row k has the bits of the bytes of word k, byte 0 at the left.
fn rows(plane: u64) -> [u8; 8] {
    plane.to_le_bytes().map(u8::reverse_bits)
}
