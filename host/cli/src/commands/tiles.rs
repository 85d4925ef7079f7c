//! Tiles of 8 by 8 bits.

use super::masks::WORD;
use crate::answer::Answer;
use crate::args::{unexpected, Given, Text};
use crate::command::{Choice, Command, Example};
use crate::failure::Failure;
use crate::number::{hex, Base};
use crate::picture::{side_by_side, Picture};

const TURN: &str = "--turn";
const TRANSPOSE: &str = "--transpose";
const MIRROR: &str = "--mirror";

/// A movement: its option and that one's value, what stands over the tile then, and
/// the call.
struct Movement {
    option: &'static str,
    value: &'static str,
    name: &'static str,
    call: fn(u64) -> u64,
}

const MOVEMENTS: [Movement; 5] = [
    valued(TURN, "left", tigbayon::tile_turn_left),
    valued(TURN, "right", tigbayon::tile_turn_right),
    Movement {
        option: TRANSPOSE,
        value: "",
        name: "transpose",
        call: tigbayon::tile_transpose,
    },
    valued(MIRROR, "columns", tigbayon::tile_mirror_columns),
    valued(MIRROR, "rows", tigbayon::tile_mirror_rows),
];

/// A movement that is named by its option's value.
const fn valued(option: &'static str, value: &'static str, call: fn(u64) -> u64) -> Movement {
    Movement {
        option,
        value,
        name: value,
        call,
    }
}

/// Tile.
pub const TILE: Command = Command {
    name: "tile",
    about: "turns, transposes or mirrors a tile of 8 by 8 bits, and draws it",
    arguments: &[WORD],
    options: &[&[
        Choice::valued(TURN, "left|right", "a quarter turn").repeated(),
        Choice::flag(TRANSPOSE, "rows become columns").repeated(),
        Choice::valued(
            MIRROR,
            "columns|rows",
            "left and right exchanged, or top and bottom",
        )
        .repeated(),
    ]],
    notes: &[
        "\
Row r of a tile is byte r of the word, row 0 on top; column c is bit c of that byte,
column 7 at the left. Row r, column c goes
  to row c, column r          in transpose,
  to row c, column 7 - r      in the turn to the left,
  to row 7 - c, column r      in the turn to the right,
  to row r, column 7 - c      where columns are mirrored,
  to row 7 - r, column c      where rows are mirrored.
",
        "\
Movements are carried out in the order typed, and may be repeated. Prints the word then,
and draws the tile as it is given and after each movement: # is one, . is zero. Nothing is
refused.
",
    ],
    refusals: &[],
    examples: &[
        Example {
            call: "tile 0x4040407840407E --turn left --turn left --turn left --turn left",
            prints: "\
0x4040407840407E
given     left      left      left      left
.######.  ........  ........  ........  .######.
.#......  #.......  ......#.  .#######  .#......
.#......  #.......  ......#.  ....#..#  .#......
.####...  #..#....  ......#.  ....#..#  .####...
.#......  #..#....  ...####.  ....#..#  .#......
.#......  #..#....  ......#.  .......#  .#......
.#......  #######.  ......#.  .......#  .#......
........  ........  .######.  ........  ........",
        },
        Example {
            call: "tile 4040407840407E --transpose --mirror columns --turn right",
            prints: "\
0x4040407840407E
given     transpose columns   right
.######.  ........  ........  .######.
.#......  .......#  #.......  .#......
.#......  .......#  #.......  .#......
.####...  ....#..#  #..#....  .####...
.#......  ....#..#  #..#....  .#......
.#......  ....#..#  #..#....  .#......
.#......  .#######  #######.  .#......
........  ........  ........  ........",
        },
        Example {
            call: "tile 3C4299A581A5423C",
            prints: "\
0x3C4299A581A5423C
given
..####..
.#....#.
#.#..#.#
#......#
#.#..#.#
#..##..#
.#....#.
..####..",
        },
    ],
    perform: tile,
};

fn tile(given: &Given) -> Result<Answer, Failure> {
    let mut tile = given.argument(WORD.name).number(Base::Hexadecimal)?;
    let mut pictures = vec![picture("given", tile)];
    for text in given.in_turn(&[TURN, TRANSPOSE, MIRROR]) {
        let Movement { name, call, .. } = movement(&text)?;
        tile = call(tile);
        pictures.push(picture(name, tile));
    }
    Ok(Answer::of(hex(tile) + "\n" + &side_by_side(&pictures)))
}

/// The movement that an option and its value ask for.
fn movement(text: &Text<'_>) -> Result<Movement, Failure> {
    let of_option = || MOVEMENTS.into_iter().filter(|m| m.option == text.name());
    let asked = of_option().find(|movement| movement.value == text.text());
    asked.ok_or_else(|| {
        let expected = Vec::from_iter(of_option().map(|movement| movement.value));
        unexpected(text.name(), text.text(), &expected.join(" or "))
    })
}

fn picture(name: &str, tile: u64) -> Picture {
    Picture {
        name: name.to_string(),
        rows: tile.to_le_bytes(),
    }
}
