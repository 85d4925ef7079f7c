//! Permutations by groups: the masks that are printed, and drawings in characters, read
//! back.

mod support;

use conformance::samples::{any_word, Random};
use std::fs;
use std::iter::zip;
use support::groups::{routed, Routed};
use support::{folder, list, prints, run_line};

const HEAVY: [char; 7] = ['━', '┃', '┏', '┓', '┗', '┛', '▶'];

/// Worked out by hand from request 08 of paper 02: before each step the bits from place 0
/// up, those marked in brackets.
#[test]
fn by_hand() {
    for (permutation, masks) in [
        // [0] 1 [2] 3 [4] 5 [6] 7, [0] 2 [4] 6 [1] 3 [5] 7, [0] 4 [1] 5 [2] 6 [3] 7
        ("0,1,2,3,4,5,6,7", "0x55,0x55,0x55"),
        // 0 [1] 2 [3] 4 [5] 6 [7], 1 [3] 5 [7] 0 [2] 4 [6], 3 [7] 2 [6] 1 [5] 0 [4]
        ("7,6,5,4,3,2,1,0", "0xAA,0xAA,0xAA"),
        // [0] [1] [2] 3 4 5 [6] 7, [0] [1] 2 6 3 [4] [5] 7, [0] 1 [4] 5 [2] 6 [3] 7
        ("0,4,2,3,1,5,6,7", "0x47,0x63,0x55"),
    ] {
        let printed = prints(&["route", "8", permutation, "--groups"]);
        assert_eq!(printed, format!("masks {masks}\n"), "{permutation}");
    }
}

#[test]
fn masks_are_those_of_the_steps() {
    for routed in routed() {
        let masks = format!("masks {}\n", routed.masks().join(","));
        assert_eq!(prints(&routed.args(&[])), masks);
    }
}

/// What is printed, given to the command that groups.
#[test]
fn groups_in_turn() {
    let mut random = Random::default();
    for routed in routed() {
        let width = routed.width;
        let word = any_word(&mut random, width);
        let places = (0..).zip(&routed.permutation);
        let places = places.map(|(place, bit): (u32, _)| (word >> bit & 1) << place);
        let permuted: u64 = places.sum();
        let mut grouped = format!("{word:#X}");
        for step in &routed.steps {
            let outcome = run_line(&format!("group {width} {:x} {grouped}", step.mask));
            assert_eq!(outcome.status, 0);
            let (word, count) = outcome.output.trim_end().split_once(' ').unwrap();
            assert_eq!(count, (width / 2).to_string());
            grouped = word.to_string();
        }
        assert_eq!(grouped, format!("{permuted:#X}"));
    }
}

/// A drawing in characters.
struct Read {
    /// What stands above the rows and below them.
    above: Vec<String>,
    below: Vec<String>,
    /// The characters and the labels, by place.
    rows: Vec<Vec<char>>,
    labels: Vec<String>,
    /// Where the marks are.
    marks: Vec<usize>,
}

impl Read {
    fn of(routed: &Routed, options: &[&str]) -> Self {
        let drawn = prints(&routed.args(&[&["--text"], options].concat()));
        let mut above: Vec<String> = drawn.lines().map(String::from).collect();
        let mut rows = above.split_off(4);
        let below = rows.split_off(routed.width as usize);
        let end = above[3].find("place takes").unwrap();
        let (mut lines, mut labels) = (Vec::new(), Vec::new());
        for (place, row) in rows.iter().rev().enumerate() {
            let row = row.strip_prefix(&format!("{place:>8} ")).unwrap();
            let characters: Vec<char> = row.chars().collect();
            let (line, label) = characters.split_at(end - 9);
            lines.push(line.to_vec());
            labels.push(String::from_iter(label).trim().to_string());
        }
        let first = lines[0].iter().enumerate();
        let marks = first.filter(|(_, drawn)| is_mark(drawn));
        Read {
            above,
            below,
            labels,
            marks: marks.map(|(column, _)| column).collect(),
            rows: lines,
        }
    }

    /// The mark at a place in a step, and the number beside it.
    fn cell(&self, place: usize, step: usize) -> (char, u8) {
        let row = &self.rows[place][self.marks[step]..];
        let number = row[1..].iter().skip_while(|&&drawn| drawn == ' ');
        let number = String::from_iter(number.take_while(|drawn| drawn.is_ascii_digit()));
        (row[0], number.parse().unwrap())
    }

    /// The place where a path goes on that comes to this character.
    fn onward(&self, place: usize, column: usize) -> usize {
        let at = |place: usize| self.rows[place][column];
        let (mut beyond, turn): (Box<dyn Iterator<Item = usize>>, char) = match at(place) {
            '┛' => (Box::new(place + 1..self.rows.len()), '┏'),
            '┓' => (Box::new((0..place).rev()), '┗'),
            _ => return place,
        };
        let next = beyond.find(|&place| at(place) != '┃').unwrap();
        assert_eq!(at(next), turn);
        next
    }

    /// The places by column of the path that begins at this one.
    fn follow(&self, start: usize) -> Vec<usize> {
        let mut places = vec![start];
        for column in 0..self.rows[start].len() {
            places.push(self.onward(places[column], column));
        }
        places
    }

    /// How many characters of the path's lines there are.
    fn heavy(&self) -> usize {
        let characters = self.rows.iter().flatten();
        characters.filter(|drawn| HEAVY.contains(drawn)).count()
    }
}

fn is_mark(drawn: &char) -> bool {
    ['■', '□'].contains(drawn)
}

#[test]
fn rows_have_marks_and_bits() {
    for routed in routed() {
        let read = Read::of(&routed, &[]);
        for (place, row) in read.rows.iter().enumerate() {
            let marks = row.iter().filter(|drawn| is_mark(drawn));
            assert_eq!(marks.count(), routed.steps.len());
            for (number, step) in routed.steps.iter().enumerate() {
                let mark = if step.marks(place) { '■' } else { '□' };
                assert_eq!(read.cell(place, number), (mark, step.contents[place]));
            }
            let bit = routed.permutation[place];
            assert_eq!(read.labels[place], format!("{place} bit {bit}"));
        }
    }
}

/// Asserts that a line has this name, then these texts, each over or under its mark and
/// with room around.
fn assert_at_marks(line: &str, name: &str, texts: &[String], marks: &[usize]) {
    let words = String::from_iter(line.split_whitespace());
    let expected = format!("{name}{}", texts.concat()).replace(' ', "");
    assert_eq!(words, expected, "{line}");
    let mut end = 0;
    for (text, mark) in zip(texts, marks) {
        let start = end + line[end..].find(text).unwrap();
        end = start + text.len();
        assert!((start..end).contains(&(mark + 9)), "{line}");
        let around = [line[..start].chars().last(), line[end..].chars().next()];
        assert!(around.iter().flatten().all(|&drawn| drawn == ' '), "{line}");
    }
}

#[test]
fn what_stands_around_the_rows() {
    for routed in routed() {
        let (width, count) = (routed.width, routed.steps.len());
        let read = Read::of(&routed, &[]);
        let title = format!("Routed at width {width} by {count} groups");
        let detail = format!("permutation {}", list(&routed.permutation));
        assert_eq!(read.above[..3], [title, detail, String::new()]);
        let heading = read.above[3].strip_suffix(" place takes").unwrap();
        let names: Vec<String> = (0..count).map(|number| format!("step {number}")).collect();
        assert_at_marks(heading, "bit", &names, &read.marks);
        assert_at_marks(&read.below[0], "masks", &routed.masks(), &read.marks);
        let bit = routed.farthest();
        let place = routed.path(bit)[count];
        let legend = format!(
            "■ marked in step i: to a place with bit i zero  □ with bit i one  \
             ━ bit {bit}, to place {place}"
        );
        assert_eq!(read.below[1..], [String::new(), legend]);
    }
}

/// The heavy line is the followed bit's path, and nothing else is heavy.
fn assert_followed(routed: &Routed, read: &Read, bit: u8) {
    let places = read.follow(bit.into());
    let at_marks = read.marks.iter().map(|&column| places[column]);
    let end = places.last().copied();
    assert_eq!(Vec::from_iter(at_marks.chain(end)), routed.path(bit));
    let cell = format!(" ■ {} ", routed.width - 1).chars().count();
    let columns = read.rows[0].len() - cell * read.marks.len();
    let turns = places.windows(2).map(|ends| ends[0].abs_diff(ends[1]));
    assert_eq!(read.heavy(), columns + turns.sum::<usize>());
    let heads = read.rows.iter().map(|row| row.last() == Some(&'▶'));
    let ends = (0..read.rows.len()).map(|place| Some(place) == end);
    assert!(heads.eq(ends));
}

#[test]
fn the_bit_that_goes_farthest_is_followed() {
    for routed in routed() {
        let read = Read::of(&routed, &[]);
        assert_followed(&routed, &read, routed.farthest());
    }
}

#[test]
fn any_bit_can_be_followed() {
    for routed in routed()
        .iter()
        .filter(|routed| routed.width <= 16)
        .step_by(9)
    {
        for bit in 0..routed.width as u8 {
            let read = Read::of(routed, &["--bit", &bit.to_string()]);
            assert_followed(routed, &read, bit);
        }
    }
}

#[test]
fn svg_goes_to_a_file_or_to_the_output() {
    let file = folder("groups").join("groups.svg");
    let name = file.to_str().unwrap();
    let route = ["route", "8", "0,4,2,3,1,5,6,7", "--groups"];
    let drawn = prints(&[&route[..], &["--svg", "-"]].concat());
    assert!(drawn.starts_with("<svg xmlns="));
    for form in [[].as_slice(), &["--text"]] {
        let printed = prints(&[&route[..], form].concat());
        let both = [&route[..], form, &["--svg", name]].concat();
        assert_eq!(prints(&both), printed);
        assert_eq!(fs::read_to_string(&file).unwrap(), drawn);
        fs::remove_file(&file).unwrap();
    }
}

#[test]
fn the_help_says_what_the_masks_mean() {
    let help = prints(&["route", "--help"]);
    let help = Vec::from_iter(help.split_whitespace()).join(" ");
    for said in [
        "--groups masks to group by in turn, in place of controls",
        "The mask of step i, from 0, marks each place whose present bit must end at a place \
         whose number has bit i zero.",
        "$ tigbayon route 8 0,4,2,3,1,5,6,7 --groups masks 0x47,0x63,0x55",
        "$ tigbayon route 8 0,4,2,3,1,5,6,7 --groups --text Routed at width 8 by 3 groups",
    ] {
        assert!(help.contains(said), "{said}");
    }
}
