//! Tiles: what is printed, and the pictures, read back.

mod support;

use conformance::samples::{any_word, Random};
use conformance::tiles::{drawn, Movement};
use conformance::tiles::{MIRROR_COLUMNS, MIRROR_ROWS, TRANSPOSE, TURN_LEFT, TURN_RIGHT};
use support::{prints, run};

/// An F that reads right: row 0 on top, column 7 at the left.
const LETTER: &str = "\
.######.
.#......
.#......
.####...
.#......
.#......
.#......
........
";

/// The options of each movement, and the name of its picture.
const OPTIONS: [(&[&str], &str, Movement); 5] = [
    (&["--turn", "left"], "left", TURN_LEFT),
    (&["--turn", "right"], "right", TURN_RIGHT),
    (&["--transpose"], "transpose", TRANSPOSE),
    (&["--mirror", "columns"], "columns", MIRROR_COLUMNS),
    (&["--mirror", "rows"], "rows", MIRROR_ROWS),
];

/// What stands in a line of pictures, in ten columns each.
fn cells(line: &str) -> Vec<&str> {
    let starts = (0..line.len()).step_by(10);
    let cells = starts.map(|start| &line[start..line.len().min(start + 10)]);
    cells.map(str::trim_end).collect()
}

/// The word that is printed first, and the pictures by name, as tiles.
fn read(printed: &str) -> (u64, Vec<(&str, u64)>) {
    let lines: Vec<&str> = printed.lines().collect();
    assert_eq!(lines.len(), 10, "{printed}");
    let word = lines[0].strip_prefix("0x").unwrap();
    let names = cells(lines[1]);
    let rows: Vec<Vec<&str>> = lines[2..].iter().map(|line| cells(line)).collect();
    assert!(rows.iter().all(|row| row.len() == names.len()), "{printed}");
    let pictures = names.into_iter().enumerate().map(|(number, name)| {
        let rows: Vec<&str> = rows.iter().map(|row| row[number]).collect();
        (name, drawn(&rows.join("\n")))
    });
    (u64::from_str_radix(word, 16).unwrap(), pictures.collect())
}

#[test]
fn a_letter_turned_left_four_times() {
    let letter = format!("{:#X}", drawn(LETTER));
    assert_eq!(letter, "0x4040407840407E");
    let args = ["tile", &letter];
    let left = ["--turn", "left"].repeat(4);
    let printed = prints(&[&args[..], &left].concat());
    let pictures = "\
given     left      left      left      left
.######.  ........  ........  ........  .######.
.#......  #.......  ......#.  .#######  .#......
.#......  #.......  ......#.  ....#..#  .#......
.####...  #..#....  ......#.  ....#..#  .####...
.#......  #..#....  ...####.  ....#..#  .#......
.#......  #..#....  ......#.  .......#  .#......
.#......  #######.  ......#.  .......#  .#......
........  ........  .######.  ........  ........
";
    assert_eq!(printed, format!("{letter}\n{pictures}"));
}

#[test]
fn without_a_movement_it_is_only_shown() {
    let printed = prints(&["tile", "4040407840407E"]);
    assert_eq!(printed, format!("0x4040407840407E\ngiven\n{LETTER}"));
}

#[test]
fn each_movement() {
    let mut random = Random::default();
    for (options, name, movement) in OPTIONS {
        for _ in 0..20 {
            let tile = any_word(&mut random, 64);
            let given = format!("{tile:x}");
            let printed = prints(&[&["tile", &given], options].concat());
            let moved = movement.check(tile);
            let pictures = vec![("given", tile), (name, moved)];
            assert_eq!(read(&printed), (moved, pictures));
        }
    }
}

/// Any of them, any number of times, in the order typed.
#[test]
fn movements_in_turn() {
    let mut random = Random::default();
    for count in 0..=12 {
        let tile = any_word(&mut random, 64);
        let (given, mut args) = (format!("{tile:x}"), vec!["tile"]);
        let (mut moved, mut pictures) = (tile, vec![("given", tile)]);
        // The word may stand before, between or after the options.
        let place = random.below(count + 1);
        for number in 0..count {
            if number == place {
                args.push(&given);
            }
            let (options, name, movement) = random.pick(&OPTIONS);
            args.extend(options);
            moved = movement.check(moved);
            pictures.push((name, moved));
        }
        if place == count {
            args.push(&given);
        }
        assert_eq!(read(&prints(&args)), (moved, pictures), "{args:?}");
    }
}

/// The order typed is not that of the help.
#[test]
fn two_orders() {
    let there = ["tile", "4040407840407E", "--mirror", "rows", "--transpose"];
    let (turned, _) = read(&prints(&there));
    assert_eq!(turned, TURN_LEFT.check(drawn(LETTER)));
    let back = ["tile", "4040407840407E", "--transpose", "--mirror", "rows"];
    let (turned, _) = read(&prints(&back));
    assert_eq!(turned, TURN_RIGHT.check(drawn(LETTER)));
}

#[test]
fn a_value_attached() {
    let apart = prints(&["tile", "7E", "--turn", "left", "--mirror", "rows"]);
    let attached = prints(&["tile", "--turn=left", "7E", "--mirror=rows"]);
    assert_eq!(attached, apart);
}

/// Nothing is refused, and nothing is printed beside the answer.
#[test]
fn the_ends_of_the_range() {
    for word in ["0", "FFFFFFFFFFFFFFFF", "0x8000000000000001"] {
        assert_eq!(run(&["tile", word, "--turn", "left"]).status, 0);
    }
}
