//! Both networks, and the decoder of their controls.

use super::{drawn, masks};
use crate::answer::Answer;
use crate::args::{unexpected, Given, Text};
use crate::command::{Argument, Command, Example, MASK, WIDTH};
use crate::drawing::{Caption, Drawing};
use crate::failure::Failure;
use crate::network::{paths, Network};
use crate::number::{hex, Base};
use std::slice;
use tigbayon::{Controls, Refusal};

const STAGES: Argument = Argument {
    name: "STAGES",
    about: "hexadecimal, at most 6 in the direction of travel; missing ones are zero",
};

const ARGUMENTS: &[Argument] = &[WIDTH, STAGES, masks::WORD];

const REFUSALS: &[Refusal] = &[Refusal::Width, Refusal::Above, Refusal::Unused];

/// The call that sends a word through a network.
pub type Carry = fn(u32, &Controls, u64) -> Result<u64, Refusal>;

/// The butterfly.
pub const BUTTERFLY: Command = Command {
    name: "butterfly",
    about: "sends the word through the butterfly, distances w/2, .., 2, 1",
    arguments: ARGUMENTS,
    options: &[],
    notes: &[],
    refusals: REFUSALS,
    examples: &[
        Example {
            call: "butterfly 8 0 0x01",
            prints: "0x80",
        },
        Example {
            call: "butterfly 8 0x7,0x1,0x5 0x1A",
            prints: "0xA4",
        },
        Example {
            call: "butterfly 8 0x10 0x01",
            prints: "refused 3: a one in an unused control bit or stage",
        },
    ],
    perform: |given| by_stages(given, tigbayon::butterfly),
};

/// The inverse butterfly.
pub const INVERSE: Command = Command {
    name: "inverse",
    about: "sends the word through the inverse butterfly, distances 1, 2, .., w/2",
    arguments: ARGUMENTS,
    options: &[],
    notes: &[],
    refusals: REFUSALS,
    examples: &[
        Example {
            call: "inverse 8 0 0x01",
            prints: "0x80",
        },
        Example {
            call: "inverse 8 0x5,0x1,0x7 0xA4",
            prints: "0x1A",
        },
    ],
    perform: |given| by_stages(given, tigbayon::inverse),
};

/// The decoder.
pub const DECODE: Command = Command {
    name: "decode",
    about: "finds the controls by which the networks scatter and gather",
    arguments: &[WIDTH, MASK],
    options: &[&drawn::choices("draw the networks in characters")],
    notes: &[drawn::NOTES],
    refusals: &[Refusal::Width, Refusal::Above],
    examples: &[
        Example {
            call: "decode 8 0xAD",
            prints: "butterfly 0x7,0x1,0x5\ninverse   0x5,0x1,0x7",
        },
        Example {
            call: "decode 8 0xAD --text",
            prints: "\
Mask 0xAD decoded at width 8
the butterfly scatters to the marked places, the inverse gathers from them

     bit      butterfly    mask      inverse       place takes
       7 ────●────●──────●━━━■━━━━━●────●──────●──     7 bit 7
       6 ──○─┼────┼─●━━━━●───□─────●━━━━┿━●──○─┼──     6 bit 6
       5 ──○─┼────●─╂──○─────■───○──────●─╂──○─┼──     5 bit 5
       4 ━━○━┿━━━━━━●──○─────□───○────────●━━○━┿━━▶    4 bit 4
       3 ────●────●──────●───■─────●────●──────●──     3 bit 3
       2 ──○────○─┼──────●───■─────●──○─┼────○────     2 bit 2
       1 ──○──────●────○─────□───○──────●────○────     1 bit 1
       0 ──○────○──────○─────■───○────○──────○────     0 bit 0
distance    4     2     1         1     2     4
controls   0x7   0x1   0x5       0x5   0x1   0x7

○ passes  ● swaps with the ● it is joined to  ■ marked  ━ bit 4, to place 7 and back",
        },
        Example {
            call: "decode 8 0",
            prints: "butterfly 0x0,0x0,0x0\ninverse   0x0,0x0,0x0",
        },
    ],
    perform: decode,
};

fn by_stages(given: &Given, call: Carry) -> Result<Answer, Failure> {
    let width = given.argument("WIDTH").number(Base::Decimal)?;
    let controls = controls(&given.argument(STAGES.name))?;
    let word = given.argument("WORD").number(Base::Hexadecimal)?;
    let result = call(width, &controls, word)?;
    Ok(Answer::of(hex(result) + "\n"))
}

/// The stages that are given, then zeros.
pub fn controls(text: &Text<'_>) -> Result<Controls, Failure> {
    let stages: Vec<u32> = text.numbers(Base::Hexadecimal)?;
    let mut controls = Controls::default();
    let most = controls.stages.len();
    let Some(used) = controls.stages.get_mut(..stages.len()) else {
        let expected = format!("at most {most} stages");
        return Err(unexpected(text.name(), text.text(), &expected));
    };
    used.copy_from_slice(&stages);
    Ok(controls)
}

fn decode(given: &Given) -> Result<Answer, Failure> {
    let width = given.argument("WIDTH").number(Base::Decimal)?;
    let mask: u64 = given.argument("MASK").number(Base::Hexadecimal)?;
    let decoded = tigbayon::decode(width, mask)?;
    let butterfly = Network::butterfly(width, decoded.butterfly);
    let there = paths(slice::from_ref(&butterfly), width);
    let bit = there.farthest(mask.count_ones());
    let drawing = Drawing {
        caption: Caption {
            title: format!("Mask {} decoded at width {width}", hex(mask)),
            detail: "the butterfly scatters to the marked places, the inverse gathers from them"
                .to_string(),
        },
        networks: vec![butterfly, Network::inverse(width, decoded.inverse)],
        mask: Some(mask),
        width,
        bit,
    };
    drawn::answer(given, drawing)
}
