//! Four channels in one frame: drawings in SVG, read back.

mod support;

use conformance::samples::Random;
use std::collections::{HashMap, HashSet};
use std::fs;
use std::iter::zip;
use std::sync::LazyLock;
use support::areas::{assert_apart, sheet, text_areas, Area};
use support::elements::{assert_on_sheet, elements, Block, Element};
use support::folder;
use support::frames::{frame_prints, read_frames, Asked, Printed};

/// The parts of a bar: their classes, characters and meanings.
const PARTS: [(&str, char, &str); 3] = [
    ("used", '■', "used of its guarantee"),
    ("left", '□', "left of it"),
    ("rest", '+', "used of the rest"),
];

/// A drawing, and the same frames in characters.
struct Drawn {
    frames: Vec<Printed>,
    elements: Vec<Element>,
}

static DRAWINGS: LazyLock<Vec<Drawn>> = LazyLock::new(|| {
    let mut random = Random::default();
    let most = [0, 1, 2, 5, 20, 58, 59, 200];
    let any = most.map(|most| Asked::any(&mut random, most));
    let others = [
        Asked::of([0; 4], [""; 4]),
        Asked::of([1, 0, 0, 0], ["", "", "", ""]),
        Asked::of([u32::MAX, 0, 0, 0], ["3", "3", "", "1"]),
        Asked::of([1_073_741_823; 4], ["3", "1", "", "22"]),
        Asked::of([u32::MAX - 7, 0, 7, 0], ["", "33", "1", ""]),
    ];
    let asked = any.into_iter().chain(others);
    let drawn = |asked: Asked| Drawn::of(&asked.file());
    asked.map(drawn).collect()
});

impl Drawn {
    fn of(file: &str) -> Self {
        let options = ["--until-done"];
        let frames = read_frames(&frame_prints(file, &options));
        let elements = elements(&frame_prints(file, &["--until-done", "--svg", "-"]));
        Drawn { frames, elements }
    }

    /// The cells of a bar's part; none if it is not drawn.
    fn cells(&self, frame: usize, channel: usize, class: &str) -> Vec<Block> {
        let is_part = |element: &&Element| {
            let number = |name| {
                element
                    .attributes
                    .get(name)
                    .map(|text: &String| text.parse())
            };
            let numbers = ["data-frame", "data-channel"].map(number);
            element.is(class) && numbers == [Some(Ok(frame)), Some(Ok(channel))]
        };
        let mut parts = self.elements.iter().filter(is_part);
        let cells = parts.next().map_or(Vec::new(), Element::blocks);
        assert!(parts.next().is_none(), "a part is one path");
        cells
    }

    /// The cells of a bar.
    fn bar(&self, frame: usize, channel: usize) -> Vec<Block> {
        PARTS
            .map(|(class, ..)| self.cells(frame, channel, class))
            .concat()
    }

    /// The numbers of all frames and channels.
    fn channels(&self) -> impl Iterator<Item = (usize, usize)> {
        let frames = 0..self.frames.len();
        frames.flat_map(|frame| (0..4).map(move |channel| (frame, channel)))
    }

    /// The texts, with the places where they stand.
    fn texts(&self) -> Vec<(&str, (i32, i32))> {
        let texts = self
            .elements
            .iter()
            .filter(|element| element.name == "text");
        let texts = texts.map(|text| (text.text.as_str(), (text.number("x"), text.number("y"))));
        texts.collect()
    }
}

#[test]
fn cells_are_those_of_the_characters() {
    for drawn in DRAWINGS.iter() {
        for (frame, channel) in drawn.channels() {
            let (bar, _) = &drawn.frames[frame].bars[channel];
            for (class, character, _) in PARTS {
                let cells = drawn.cells(frame, channel, class).len();
                assert_eq!(cells, bar.matches(character).count(), "{bar}");
            }
        }
        let parts = PARTS.map(|(class, ..)| class);
        let is_part = |element: &&Element| parts.iter().any(|class| element.is(class));
        let count = drawn.elements.iter().filter(is_part).count();
        let bars = drawn
            .channels()
            .map(|(frame, channel)| &drawn.frames[frame].bars[channel]);
        let signs = bars.map(|(bar, _)| HashSet::<char>::from_iter(bar.chars()).len());
        assert_eq!(count, signs.sum());
    }
}

/// Used, left and from the rest from the left, one cell beside the other, at one place of
/// all bars.
#[test]
fn cells_are_in_a_row() {
    for drawn in DRAWINGS.iter() {
        let mut starts = HashSet::new();
        for (frame, channel) in drawn.channels() {
            let bar = drawn.bar(frame, channel);
            starts.extend(bar.first().map(|cell| cell.place.0));
            for cells in bar.windows(2) {
                let [one, next] = [cells[0], cells[1]];
                assert_eq!(one.size, next.size);
                assert_eq!(one.place.1, next.place.1);
                assert_eq!(one.place.0 + one.size.0 + 1, next.place.0);
            }
        }
        assert!(starts.len() <= 1, "{starts:?}");
    }
}

/// Each colour is told in the legend, beside its meaning.
#[test]
fn parts_are_told_apart() {
    for drawn in DRAWINGS.iter() {
        let mut colours = HashMap::new();
        for (index, element) in drawn.elements.iter().enumerate() {
            if let Some((class, ..)) = PARTS.iter().find(|(class, ..)| element.is(class)) {
                colours.insert(*class, element.attributes["fill"].as_str());
            }
            // In the legend the text follows its sign.
            if let Some((class, ..)) = PARTS.iter().find(|(_, _, said)| element.text == *said) {
                let sign = &drawn.elements[index - 1];
                assert_eq!(sign.blocks().len(), 1);
                let colour = sign.attributes["fill"].as_str();
                let drawn = colours.insert(class, colour);
                assert!(drawn.is_none_or(|drawn| drawn == colour));
            }
        }
        let different: HashSet<&str> = colours.values().copied().collect();
        assert_eq!((colours.len(), different.len()), (3, 3));
    }
}

/// Its name at the left of a bar, its cycles and its answer at the right.
#[test]
fn words_stand_beside_their_bars() {
    for drawn in DRAWINGS.iter() {
        let texts = drawn.texts();
        let names = texts
            .iter()
            .filter(|(text, _)| text.starts_with("channel "));
        assert_eq!(names.clone().count(), 4 * drawn.frames.len());
        for ((frame, channel), (name, (x, y))) in zip(drawn.channels(), names) {
            assert_eq!(*name, format!("channel {channel}"));
            let printed = &drawn.frames[frame];
            let answer = printed.channels[channel][0].split_once(": ").unwrap().1;
            let beside = texts
                .iter()
                .filter(|(_, (_, other))| (y - 20..y + 20).contains(other));
            let beside: Vec<&str> = beside.map(|(text, _)| *text).collect();
            assert_eq!(beside, [*name, &printed.bars[channel].1, answer]);
            for cell in drawn.bar(frame, channel) {
                assert!(cell.place.0 > *x);
                assert!((cell.place.1..cell.place.1 + cell.size.1).contains(y));
            }
        }
    }
}

#[test]
fn headings() {
    for drawn in DRAWINGS.iter() {
        let texts: Vec<&str> = drawn.texts().iter().map(|(text, _)| *text).collect();
        let count = drawn.frames.len();
        let title = match count {
            1 => "Four channels in one frame".to_string(),
            _ => format!("Four channels in {count} frames"),
        };
        assert_eq!(drawn.elements[1].text, title);
        let (_, cell) = drawn.frames[0].legend.rsplit_once("  ").unwrap();
        assert_eq!(texts[..2], [&title, cell]);
        let mut said = texts.iter().enumerate();
        for (number, frame) in (1..).zip(&drawn.frames) {
            let name = format!("frame {number}");
            let (index, _) = said.find(|(_, text)| **text == name).unwrap();
            let heading = format!("{name}: {}", texts[index + 1]);
            assert_eq!(heading, frame.heading);
        }
    }
}

/// Texts and cells, each of which lies on the sheet.
#[test]
fn nothing_overlaps() {
    for drawn in DRAWINGS.iter() {
        let sheet = sheet(&drawn.elements);
        let texts = text_areas(&drawn.elements);
        assert_apart(&texts);
        let paths = drawn
            .elements
            .iter()
            .filter(|element| element.name == "path");
        let cells = paths.flat_map(Element::blocks).map(|cell| {
            let [x, y, width, height] = [cell.place.0, cell.place.1, cell.size.0, cell.size.1];
            let [right, bottom] = [x + width, y + height];
            Area {
                x: [x.into(), right.into()],
                y: [y.into(), bottom.into()],
            }
        });
        let cells: Vec<Area> = cells.collect();
        assert_apart(&cells);
        for text in &texts {
            assert!(cells.iter().all(|cell| !cell.meets(text)), "{text:?}");
        }
        let all = texts.iter().chain(&cells);
        all.for_each(|area| assert!(sheet.holds(area), "{area:?}"));
        let bars = drawn
            .channels()
            .flat_map(|(frame, channel)| drawn.bar(frame, channel));
        assert_on_sheet(&drawn.elements, bars.map(|cell| cell.place));
    }
}

/// Beside what is printed, or in its place.
#[test]
fn svg_goes_to_a_file_or_to_the_output() {
    let name = folder("frame_svg").join("bars.svg");
    let file = Asked::of([2, 1, 4, 0], ["21", "113", "1", ""]).file();
    let drawn = frame_prints(&file, &["--svg", "-"]);
    assert!(drawn.starts_with("<svg xmlns="));
    let beside = frame_prints(&file, &["--svg", name.to_str().unwrap()]);
    assert_eq!(beside, frame_prints(&file, &[]));
    assert_eq!(fs::read_to_string(&name).unwrap(), drawn);
}
