//! Planes of pixels.

use super::drawn::{Forms, SVG};
use super::packing::{out, OUT_CHOICES, TOO_LONG};
use crate::answer::Answer;
use crate::args::Given;
use crate::command::{Argument, Choice, Command, Example};
use crate::drawing::pixels;
use crate::failure::Failure;
use crate::number::{hex_list, Base};
use crate::plane::Despeckled;
use tigbayon::Refusal;

const WORDS: &str = "WORDS..";

/// The options that say what shape the plane has.
const ROWS: &str = "--rows";
const ROW_WORDS: &str = "--words";

/// Despeckle.
pub const DESPECKLE: Command = Command {
    name: "despeckle",
    about: "puts out the lone pixels of a plane, and draws it",
    arguments: &[Argument {
        name: WORDS,
        about: "hexadecimal; the plane, row after row from the top",
    }],
    options: &[
        &[
            Choice::valued(ROWS, "H", "how many rows it has"),
            Choice::valued(ROW_WORDS, "V", "how many words a row has"),
        ],
        &OUT_CHOICES,
        &[
            Choice::flag("--text", "draw both planes in characters"),
            SVG,
        ],
    ],
    notes: &[
        "\
The leftmost pixel of a row is bit 63 of its first word; a one is lit. Pixels outside the
plane are dark. A lit pixel stays lit if at least one of the eight around it is lit, and
else goes out.
",
        "\
Where H or V is not given, it is the one that the other needs; without either, a row is
one word. Prints all words of the list that is written into.
",
    ],
    refusals: &[Refusal::Range, Refusal::Short, Refusal::Plane],
    examples: &[
        Example {
            call: "despeckle --rows 3 --words 1 8000000000000000,4000000000000005,0",
            prints: "0x8000000000000000,0x4000000000000000,0x0",
        },
        Example {
            call: "despeckle --rows 1 1,8000000000000000 1 --out 7,7,7,7",
            prints: "0x1,0x8000000000000000,0x0,0x7",
        },
        Example {
            call: "despeckle --text 8000,89C080,888800,F88001,8888030,89C200",
            prints: "\
Despeckled, 6 rows of 1 word
30 pixels lit, 5 went out

before
................................................#...............
........................................#...#..###......#.......
........................................#...#...#...#...........
........................................#####...#..............#
....................................#...#...#...#.........##....
........................................#...#..###....#.........

after
................................................#...............
........................................#...#..###......o.......
........................................#...#...#...o...........
........................................#####...#..............o
....................................o...#...#...#.........##....
........................................#...#..###....o.........

# lit  o went out  . dark",
        },
        Example {
            call: "despeckle --rows 1 1,8000000000000000 --svg pixels.svg",
            prints: "0x1,0x8000000000000000",
        },
        Example {
            call: "despeckle --rows 2 --words 2 1,2,3",
            prints:
                "refused 13: no rows, no words in a row, or the plane's length not their product",
        },
    ],
    perform: despeckle,
};

fn despeckle(given: &Given) -> Result<Answer, Failure> {
    let before: Vec<u64> = given.argument(WORDS).numbers(Base::Hexadecimal)?;
    let (rows, row_words) = shape(given, before.len())?;
    // Where no list is long enough, the longest.
    let needed = rows.saturating_mul(row_words).min(TOO_LONG - 1);
    let mut after = out(given, || needed)?;
    tigbayon::despeckle(&before, rows, row_words, &mut after)?;
    let written = hex_list(&after) + "\n";
    let despeckled = Despeckled {
        row_words,
        before,
        after,
    };
    let forms = Forms {
        plain: || written.clone(),
        text: || pixels::text(&despeckled),
        svg: || pixels::svg(&despeckled),
    };
    forms.asked_for(given)
}

/// The rows of a plane of so many words, and the words of a row.
fn shape(given: &Given, length: usize) -> Result<(usize, usize), Failure> {
    let number = |name| {
        let text = given.option(name);
        text.map(|text| text.number(Base::Decimal)).transpose()
    };
    let other = |one| length.checked_div(one).unwrap_or(0);
    Ok(match (number(ROWS)?, number(ROW_WORDS)?) {
        (Some(rows), Some(row_words)) => (rows, row_words),
        (Some(rows), None) => (rows, other(rows)),
        (None, Some(row_words)) => (other(row_words), row_words),
        (None, None) => (length, 1),
    })
}
