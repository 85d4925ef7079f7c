//! Drawings in characters, read back.

mod support;

use std::sync::LazyLock;
use support::drawn::{calls, switches, Call};
use support::{list, prints};

const PASS: char = '○';
const SWAP: char = '●';
const CROSSINGS: [char; 3] = ['┼', '╂', '┿'];
const FOLLOWED: [char; 6] = ['━', '┿', PASS, SWAP, '■', '□'];

/// A drawing: its characters and labels, by place.
struct Read {
    lines: Vec<Vec<char>>,
    ends: Vec<bool>,
    labels: Vec<String>,
    legend: String,
}

impl Read {
    fn of(width: u32, args: &[&str]) -> Self {
        let text = prints(&[args, &["--text"]].concat());
        let lines = text
            .lines()
            .skip_while(|line| !line.ends_with("place takes"));
        let rows: Vec<&str> = lines.skip(1).take(width as usize).collect();
        let (mut lines, mut ends, mut labels) = (Vec::new(), Vec::new(), Vec::new());
        for (place, row) in rows.into_iter().rev().enumerate() {
            let row = row.strip_prefix(&format!("{place:>8} ")).unwrap();
            let (line, label) = row.split_at(row.find([' ', '▶']).unwrap());
            lines.push(line.chars().collect());
            ends.push(label.starts_with('▶'));
            labels.push(label.trim_start_matches('▶').trim().to_string());
        }
        let legend = text.lines().last().unwrap().to_string();
        Read {
            lines,
            ends,
            labels,
            legend,
        }
    }

    /// The other end of a switch, along its line across other places.
    fn other_end(&self, place: usize, column: usize) -> usize {
        let at = |place: &usize| self.lines[*place][column];
        let crossed = |place: &usize| CROSSINGS.contains(&at(place));
        let above = (place + 1..self.lines.len()).find(|place| !crossed(place));
        let below = (0..place).rev().find(|place| !crossed(place));
        let ends = [above, below].into_iter().flatten();
        let ends: Vec<usize> = ends.filter(|place| at(place) == SWAP).collect();
        assert_eq!(ends.len(), 1, "place {place}, column {column}");
        ends[0]
    }

    /// The characters that a bit comes through, and the place where it ends.
    fn follow(&self, bit: usize) -> (Vec<char>, usize) {
        let mut place = bit;
        let mut through = Vec::new();
        for column in 0..self.lines[0].len() {
            through.push(self.lines[place][column]);
            if through[column] == SWAP {
                place = self.other_end(place, column);
            }
        }
        (through, place)
    }

    /// How often a character is drawn.
    fn count(&self, character: char) -> usize {
        let characters = self.lines.iter().flatten();
        characters.filter(|&&drawn| drawn == character).count()
    }
}

/// Every call, and its drawing.
static DRAWINGS: LazyLock<Vec<(Call, Read)>> = LazyLock::new(|| {
    let drawn = |call: Call| {
        let read = Read::of(call.width, &call.args());
        (call, read)
    };
    calls().into_iter().map(drawn).collect()
});

#[test]
fn every_bit_ends_where_the_permutation_says() {
    for (call, read) in DRAWINGS.iter() {
        for (place, &bit) in call.permutation.iter().enumerate() {
            assert_eq!(read.follow(bit.into()).1, place);
            assert_eq!(read.labels[place], format!("{place} bit {bit}"));
        }
    }
}

#[test]
fn every_switch_is_drawn_once() {
    for (call, read) in DRAWINGS.iter() {
        let switches = switches(call.width, &prints(&call.args()));
        let passes = switches.iter().filter(|switch| switch.passes).count();
        assert_eq!(read.count(PASS), 2 * passes);
        assert_eq!(read.count(SWAP), 2 * (switches.len() - passes));
    }
}

/// The heavy line is the followed bit's path, and nothing else is heavy.
#[test]
fn the_followed_bit_has_the_heavy_line() {
    for (_, read) in DRAWINGS.iter() {
        let (_, legend) = read.legend.split_once("━ bit ").unwrap();
        let bit: usize = legend.split_once(',').unwrap().0.parse().unwrap();
        let (through, end) = read.follow(bit);
        assert!(through.iter().all(|on| FOLLOWED.contains(on)));
        for heavy in ['━', '┿'] {
            let followed = through.iter().filter(|&&on| on == heavy).count();
            assert_eq!(read.count(heavy), followed);
        }
        let ends = (0..read.lines.len()).map(|place| place == end);
        assert!(ends.eq(read.ends.iter().copied()));
    }
}

#[test]
fn any_bit_can_be_followed() {
    let permutation = [0, 4, 2, 3, 1, 5, 6, 7];
    for (place, bit) in (0..).zip(permutation) {
        let bit = bit.to_string();
        let args = ["route", "8", &list(&permutation), "--bit", &bit];
        let legend = Read::of(8, &args).legend;
        let journey = format!("━ bit {bit}, to place {place}");
        assert!(legend.ends_with(&journey), "{legend}");
    }
}

#[test]
fn marked_places_are_full() {
    let read = Read::of(8, &["decode", "8", "0xAD"]);
    for (place, line) in read.lines.iter().enumerate() {
        let mark = if 0xAD >> place & 1 == 1 { '■' } else { '□' };
        let marks = line.iter().filter(|&&drawn| drawn == mark);
        assert_eq!(marks.count(), 1, "place {place}");
    }
    assert_eq!(read.count('■') + read.count('□'), 8);
}
