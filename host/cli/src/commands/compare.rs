//! Whether two sets of controls move every word alike.

use super::networks::{controls, Carry};
use super::routing::ALONE;
use crate::answer::Answer;
use crate::args::{unexpected, Given, Text};
use crate::command::{Argument, Choice, Command, Example, WIDTH};
use crate::failure::Failure;
use crate::number::Base;
use std::iter::zip;
use tigbayon::{Controls, Refusal};

const FIRST: Argument = Argument {
    name: "FIRST",
    about: "STAGES/STAGES, controls of the butterfly and of the inverse",
};

const SECOND: Argument = Argument {
    name: "SECOND",
    about: "the controls to compare FIRST with, given likewise",
};

/// What stands between the stages of both networks.
const BETWEEN: char = '/';

const FORM_NOTES: &str = "\
STAGES are hexadecimal, at most 6 in the direction of travel; missing ones are zero. With
--butterfly or --inverse FIRST and SECOND are STAGES without a slash.
";

const VERDICT_NOTES: &str = "\
Prints alike, or not alike, which is exit status 4. Below that stands the first switch where
the sets differ, going through the butterfly's stages and then the inverse's, each from
switch 0 up; then, if they are not alike, the lowest place that takes different bits.
";

/// Why of both networks the controls given do not tell, and which ones do.
const ALIKE_NOTES: &str = "\
Of one network only equal sets move every word alike. Of both, different sets may: they do
exactly if the first controls, which route finds for the permutation of each, are equal.
";

/// Compare.
pub const COMPARE: Command = Command {
    name: "compare",
    about: "tells whether two sets of controls move every word alike",
    arguments: &[WIDTH, FIRST, SECOND],
    options: &[&[
        Choice::flag(ALONE[0], "both are controls of the butterfly alone"),
        Choice::flag(ALONE[1], "both are controls of the inverse alone"),
    ]],
    notes: &[FORM_NOTES, VERDICT_NOTES, ALIKE_NOTES],
    refusals: &[Refusal::Width, Refusal::Unused],
    examples: &[
        Example {
            call: "compare 8 0x7,0x1,0x5 7,1,5,0 --butterfly",
            prints: "alike\nequal sets",
        },
        Example {
            call: "compare 8 0x7,0x1,0x5 0x7,0x1,0xD --butterfly",
            prints: "\
not alike
first difference: butterfly stage 3, switch 3: FIRST swaps, SECOND passes
place 6 takes bit 5 by FIRST, bit 4 by SECOND",
        },
        Example {
            call: "compare 8 0xF,0xF,0xF/0xF,0xF,0xF 0xF,0xF,0x0/0x0,0xF,0xF",
            prints: "\
alike
first difference: butterfly stage 3, switch 0: FIRST passes, SECOND swaps",
        },
        Example {
            call: "compare 8 0xF,0xF,0xF/0xF,0xF,0xF 0xF,0xF,0x0/0xF,0xF,0xF",
            prints: "\
not alike
first difference: butterfly stage 3, switch 0: FIRST passes, SECOND swaps
place 0 takes bit 0 by FIRST, bit 1 by SECOND",
        },
        Example {
            call: "compare 8 0xF,0xF,0xF/0xF,0xF,0xF 0xF,0xF,0x0/0x10,0xF,0xF",
            prints: "refused 3: a one in an unused control bit or stage (SECOND, inverse)",
        },
    ],
    perform: compare,
};

/// A network: its name, and the call that sends a word through it.
struct Network {
    name: &'static str,
    call: Carry,
}

/// Both, in the direction of travel.
static NETWORKS: [Network; 2] = [
    Network {
        name: "butterfly",
        call: tigbayon::butterfly,
    },
    Network {
        name: "inverse",
        call: tigbayon::inverse,
    },
];

/// The controls that a set has for one network, and their name in messages.
struct Part {
    name: String,
    network: &'static Network,
    controls: Controls,
}

fn compare(given: &Given) -> Result<Answer, Failure> {
    let width = given.argument(WIDTH.name).number(Base::Decimal)?;
    let networks = networks(given)?;
    let first = set(given, FIRST.name, networks)?;
    let second = set(given, SECOND.name, networks)?;
    let place = other_source(&sources(width, &first)?, &sources(width, &second)?);
    let switch = first_difference(&first, &second);
    let alike = match networks {
        // The library's promise: of one network only equal sets move every word alike.
        [_] => switch.is_none(),
        _ => place.is_none(),
    };
    let switch = switch.unwrap_or("equal sets".to_string());
    let below = [Some(switch), place].into_iter().flatten();
    let below = String::from_iter(below.map(|line| line + "\n"));
    Ok(if alike {
        Answer::of(format!("alike\n{below}"))
    } else {
        Answer::unalike(format!("not alike\n{below}"))
    })
}

/// The network that the sets are controls of, or both.
fn networks(given: &Given) -> Result<&'static [Network], Failure> {
    given.at_most_one(ALONE)?;
    Ok(match ALONE.map(|name| given.has(name)) {
        [true, _] => &NETWORKS[..1],
        [_, true] => &NETWORKS[1..],
        _ => &NETWORKS,
    })
}

/// The set that the argument of this name gives: a part for each of the networks.
fn set(given: &Given, name: &str, networks: &'static [Network]) -> Result<Vec<Part>, Failure> {
    let text = given.argument(name).text();
    let texts = Vec::from_iter(text.split(BETWEEN));
    if texts.len() != networks.len() {
        let expected = match networks {
            [network] => format!("STAGES of the {} without a slash", network.name),
            _ => format!(
                "STAGES/STAGES where neither {} is given",
                ALONE.join(" nor ")
            ),
        };
        return Err(unexpected(name, text, &expected));
    }
    let part = |(network, text): (&'static Network, &str)| {
        let name = match networks {
            [_] => name.to_string(),
            _ => format!("{name}, {}", network.name),
        };
        let controls = controls(&Text::part(&name, text))?;
        Ok(Part {
            name,
            network,
            controls,
        })
    };
    zip(networks, texts).map(part).collect()
}

/// The word sent through the networks in turn, by the library.
fn carried(width: u32, set: &[Part], word: u64) -> Result<u64, Failure> {
    set.iter().try_fold(word, |word, part| {
        let refused = |refusal| {
            let unused = refusal == Refusal::Unused;
            Failure::Refused {
                refusal,
                part: unused.then(|| part.name.clone()),
                below: None,
            }
        };
        (part.network.call)(width, &part.controls, word).map_err(refused)
    })
}

/// The bit that each place takes: every single bit is sent through the networks.
fn sources(width: u32, set: &[Part]) -> Result<Vec<u32>, Failure> {
    // What is refused is refused on any word, and at width 0 there is no bit to send.
    carried(width, set, 0)?;
    let mut sources = vec![0; width as usize];
    for bit in 0..width {
        let place = carried(width, set, 1 << bit)?.trailing_zeros();
        sources[place as usize] = bit;
    }
    Ok(sources)
}

/// The first switch where the sets differ, in words.
fn first_difference(first: &[Part], second: &[Part]) -> Option<String> {
    zip(first, second).find_map(|(first, second)| {
        let stages = zip(first.controls.stages, second.controls.stages);
        let (stage, (one, other)) = zip(1.., stages).find(|(_, (one, other))| one != other)?;
        let switch = (one ^ other).trailing_zeros();
        let [one, other] = [one, other].map(|control| match control >> switch & 1 {
            1 => "passes",
            _ => "swaps",
        });
        let network = first.network.name;
        Some(format!(
            "first difference: {network} stage {stage}, switch {switch}: FIRST {one}, SECOND {other}"
        ))
    })
}

/// The lowest place that takes different bits, in words.
fn other_source(first: &[u32], second: &[u32]) -> Option<String> {
    let (place, (one, other)) =
        zip(0.., zip(first, second)).find(|(_, (one, other))| one != other)?;
    Some(format!(
        "place {place} takes bit {one} by FIRST, bit {other} by SECOND"
    ))
}
