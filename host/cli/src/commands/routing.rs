//! The controls or the groups that bring about a permutation.

use super::drawn::{self, Forms};
use crate::answer::Answer;
use crate::args::Given;
use crate::command::{Argument, Choice, Command, Example, WIDTH};
use crate::drawing::{groups, Caption, Drawing};
use crate::failure::Failure;
use crate::groups::Groups;
use crate::network::{paths, Network};
use crate::number::{list, Base};
use tigbayon::Refusal;

/// The options that name one network.
pub const ALONE: [&str; 2] = ["--butterfly", "--inverse"];

/// The option that asks for masks in place of controls.
const GROUPS: &str = "--groups";

/// What first means, in the words of include/tigbayon.h.
const FIRST: &str = "\
Any other controls that realise the permutation come later: at the first switch where
the two sets differ, going through the butterfly's stages and then the inverse's, each
from switch 0 up, the first set passes. Of one network alone there is at most one set.
";

/// What the masks mean, and how they are used.
const GROUPS_NOTES: &str = "\
With --groups there is a mask for each step: 3, 4, 5 or 6 as w is 8, 16, 32 or 64. Group a
word by the first mask, the result by the second, and so on; the last result has every bit
at its place. The mask of step i, from 0, marks each place whose present bit must end at a
place whose number has bit i zero.
";

/// Route.
pub const ROUTE: Command = Command {
    name: "route",
    about: "finds the first controls of both networks for a permutation",
    arguments: &[
        WIDTH,
        Argument {
            name: "PERMUTATION",
            about: "decimal; entry p is the bit that place p takes",
        },
    ],
    options: &[
        &[
            Choice::flag(ALONE[0], "the controls of the butterfly alone"),
            Choice::flag(ALONE[1], "the controls of the inverse alone"),
            Choice::flag(GROUPS, "masks to group by in turn, in place of controls"),
        ],
        &drawn::choices("draw the networks, or the steps of --groups, in characters"),
    ],
    notes: &[FIRST, GROUPS_NOTES, drawn::NOTES],
    refusals: &[
        Refusal::Width,
        Refusal::Length,
        Refusal::Entry,
        Refusal::NotRealised,
    ],
    examples: &[
        Example {
            call: "route 8 0,4,2,3,1,5,6,7 --text",
            prints: "\
Routed at width 8 by butterfly, then inverse
permutation 0,4,2,3,1,5,6,7

     bit     butterfly         inverse      place takes
       7 ──○─────○────○─────○─────○───○────     7 bit 7
       6 ──○─────○────○─────○─────○───○────     6 bit 6
       5 ────●━━━○━━━━○━━━━━━━●───○─────●──     5 bit 5
       4 ──○─╂───○────○───────●━━━○━━━○━┿━━▶    4 bit 1
       3 ──○─╂───○────○─────○─────○───○─┼──     3 bit 3
       2 ──○─╂───○────○─────○─────○───○─┼──     2 bit 2
       1 ━━━━●───○────○─────○─────○─────●──     1 bit 4
       0 ──○─────○────○─────○─────○───○────     0 bit 0
distance    4    2    1      1    2    4
controls   0xD  0xF  0xF    0xB  0xF  0xD

○ passes  ● swaps with the ● it is joined to  ━ bit 1, to place 4",
        },
        Example {
            call: "route 8 0,4,2,3,1,5,6,7 --svg route.svg",
            prints: "butterfly 0xD,0xF,0xF\ninverse   0xB,0xF,0xD",
        },
        Example {
            call: "route 8 7,6,5,4,3,2,1,0",
            prints: "butterfly 0xF,0xF,0xF\ninverse   0x0,0x0,0x0",
        },
        Example {
            call: "route 8 0,4,2,3,1,5,6,7 --butterfly",
            prints: "refused 6: permutation not realised by the one network named",
        },
        Example {
            call: "route 8 7,0,1,2,3,4,5,6 --butterfly",
            prints: "butterfly 0x7,0x5,0x0",
        },
        Example {
            call: "route 8 0,4,2,3,1,5,6,7 --groups",
            prints: "masks 0x47,0x63,0x55",
        },
        Example {
            call: "route 8 0,4,2,3,1,5,6,7 --groups --text",
            prints: "\
Routed at width 8 by 3 groups
permutation 0,4,2,3,1,5,6,7

     bit   step 0     step 1     step 2     place takes
       7     □ 7        □ 7        □ 7          7 bit 7
       6     ■ 6        ■ 5        ■ 3          6 bit 6
       5     □ 5        ■ 4        □ 6          5 bit 5
       4     □ 4        □ 3        ■ 2   ┏━▶    4 bit 1
       3     □ 3        □ 6        □ 5   ┃      3 bit 3
       2     ■ 2        □ 2        ■ 4   ┃      2 bit 2
       1 ━━━ ■ 1 ━━━━━━ ■ 1 ━━━━━━ □ 1 ━━┛      1 bit 4
       0     ■ 0        ■ 0        ■ 0          0 bit 0
masks       0x47       0x63       0x55

■ marked in step i: to a place with bit i zero  □ with bit i one  ━ bit 1, to place 4",
        },
    ],
    perform: route,
};

fn route(given: &Given) -> Result<Answer, Failure> {
    let [butterfly, inverse] = ALONE;
    given.at_most_one([butterfly, inverse, GROUPS])?;
    let width = given.argument("WIDTH").number(Base::Decimal)?;
    let permutation: Vec<u8> = given.argument("PERMUTATION").numbers(Base::Decimal)?;
    if given.has(GROUPS) {
        by_groups(given, width, &permutation)
    } else {
        by_networks(given, width, &permutation)
    }
}

fn by_networks(given: &Given, width: u32, permutation: &[u8]) -> Result<Answer, Failure> {
    let networks = networks(given, width, permutation)?;
    let names: Vec<&str> = networks.iter().map(|network| network.name).collect();
    let drawing = Drawing {
        caption: caption(width, permutation, &names.join(", then ")),
        bit: paths(&networks, width).farthest(width),
        networks,
        mask: None,
        width,
    };
    drawn::answer(given, drawing)
}

fn by_groups(given: &Given, width: u32, permutation: &[u8]) -> Result<Answer, Failure> {
    let groups = Groups::routed(width, permutation)?;
    let steps = groups.masks.len();
    let drawing = groups::Drawing {
        caption: caption(width, permutation, &format!("{steps} groups")),
        bit: drawn::followed(given, width, groups.paths.farthest(width))?,
        groups,
    };
    let forms = Forms {
        plain: || format!("{}\n", drawing.groups),
        text: || groups::text(&drawing),
        svg: || groups::svg(&drawing),
    };
    forms.asked_for(given)
}

/// What stands over a drawing of what brings about the permutation.
fn caption(width: u32, permutation: &[u8], means: &str) -> Caption {
    let permutation = list(permutation.iter().map(u8::to_string));
    Caption {
        title: format!("Routed at width {width} by {means}"),
        detail: format!("permutation {permutation}"),
    }
}

/// The networks asked for, on the controls found.
fn networks(given: &Given, width: u32, permutation: &[u8]) -> Result<Vec<Network>, Failure> {
    if given.has(ALONE[0]) {
        let controls = tigbayon::route_butterfly(width, permutation)?;
        return Ok(vec![Network::butterfly(width, controls)]);
    }
    if given.has(ALONE[1]) {
        let controls = tigbayon::route_inverse(width, permutation)?;
        return Ok(vec![Network::inverse(width, controls)]);
    }
    let routed = tigbayon::route(width, permutation)?;
    let butterfly = Network::butterfly(width, routed.butterfly);
    let inverse = Network::inverse(width, routed.inverse);
    Ok(vec![butterfly, inverse])
}
