//! Permutations by groups: drawings in SVG, read back.

mod support;

use std::collections::{HashMap, HashSet};
use std::iter::zip;
use std::sync::LazyLock;
use support::areas::{assert_apart, rects, sheet, text_areas, Area};
use support::elements::{assert_on_sheet, Element, Point};
use support::groups::{routed, Routed};
use support::wires::Read;

/// The colours of bands, and of the followed bit's path.
const BAND: &str = "#f4f6f9";
const PATH: &str = "#dd4b16";

/// Every permutation, and its drawing.
static DRAWINGS: LazyLock<Vec<(Routed, Read)>> = LazyLock::new(|| {
    let drawn = |routed: Routed| {
        let read = Read::of(&routed.args(&[]));
        (routed, read)
    };
    routed().into_iter().map(drawn).collect()
});

/// The elements that draw ways, by number of step and bit; each bit has one in a step.
fn ways(read: &Read) -> HashMap<(usize, u32), &Element> {
    read.numbered(["data-step", "data-bit"])
}

/// The marks of all steps, each with its number.
fn marks(read: &Read) -> Vec<[&Element; 2]> {
    let pairs = read.elements.windows(2).map(|pair| [&pair[0], &pair[1]]);
    pairs
        .filter(|[mark, _]| mark.is("marked") || mark.is("unmarked"))
        .collect()
}

/// What the texts say for which this holds, in turn.
fn texts(read: &Read, said: impl Fn(&str) -> bool) -> Vec<&str> {
    let texts = read.elements.iter().map(|element| element.text.as_str());
    texts.filter(|text| said(text)).collect()
}

#[test]
fn every_way_is_drawn_once() {
    for (routed, read) in DRAWINGS.iter() {
        let ways = ways(read);
        assert_eq!(ways.len(), routed.steps.len() * routed.width as usize);
        for ((number, bit), way) in ways {
            let path = routed.path(bit as u8);
            let marked = routed.steps[number].marks(path[number]);
            assert!(way.is(if marked { "marked-way" } else { "unmarked-way" }));
            let [line] = &way.lines()[..] else {
                panic!("a way is one line");
            };
            let places = line.iter().map(|&point| read.place(point) as usize);
            assert!(places.eq(path[number..number + 2].iter().copied()));
        }
    }
}

/// The colours of ways are those of the groups that they are in.
#[test]
fn marked_ways_are_told_apart() {
    for (_, read) in DRAWINGS.iter() {
        let (mut colour, mut colours) = (None, HashSet::new());
        for element in &read.elements {
            match element.name.as_str() {
                "g" => colour = element.attributes.get("stroke"),
                _ if element.is("marked-way") => drop(colours.insert((true, colour))),
                _ if element.is("unmarked-way") => drop(colours.insert((false, colour))),
                _ => {}
            }
        }
        let colours: HashMap<bool, _> = colours.into_iter().collect();
        assert_ne!(colours[&true].unwrap(), colours[&false].unwrap());
    }
}

#[test]
fn marks_have_the_bits_at_their_places() {
    for (routed, read) in DRAWINGS.iter() {
        let path = routed.path(routed.farthest());
        let marks = marks(read);
        assert_eq!(marks.len(), routed.steps.len() * routed.width as usize);
        let of_steps = marks.chunks(routed.width as usize);
        for ((step, followed), marks) in zip(zip(&routed.steps, path), of_steps) {
            for (place, [mark, number]) in marks.iter().enumerate() {
                let marked = step.marks(place);
                assert!(mark.is(if marked { "marked" } else { "unmarked" }));
                assert_eq!(mark.attributes["fill"] != "#ffffff", marked);
                assert_eq!(mark.attributes["stroke"] == PATH, place == followed);
                assert_eq!(number.text, step.contents[place].to_string());
                let [top, height] = ["y", "height"].map(|name| mark.number(name));
                assert_eq!(read.place((0, top + height / 2)) as usize, place);
            }
        }
    }
}

#[test]
fn steps_masks_and_sources_are_told() {
    for (routed, read) in DRAWINGS.iter() {
        let names = (0..routed.steps.len()).map(|number| format!("step {number}"));
        let drawn = texts(read, |text| text.starts_with("step "));
        assert_eq!(drawn, Vec::from_iter(names));
        assert_eq!(texts(read, |text| text.starts_with("0x")), routed.masks());
        let is_source = |text: &str| {
            let number = text.strip_prefix("bit ");
            number.is_some_and(|number| number.parse::<u8>().is_ok())
        };
        let sources = routed.permutation.iter().map(|bit| format!("bit {bit}"));
        assert_eq!(texts(read, is_source), Vec::from_iter(sources));
    }
}

/// The path's points: where it starts, both ends of each step, where it ends.
fn assert_followed(routed: &Routed, read: &Read, bit: u8) {
    let points = read.path();
    let places = points.iter().map(|&point| read.place(point) as usize);
    let path = routed.path(bit).into_iter();
    assert!(places.eq(path.flat_map(|place| [place, place])));
    let lines = ways(read).into_values().flat_map(Element::lines);
    let lines: HashSet<Vec<Point>> = lines.collect();
    let within = &points[1..points.len() - 1];
    assert!(within.chunks(2).all(|ends| lines.contains(ends)));
    let journey = format!("bit {bit}, to place {}", routed.path(bit).last().unwrap());
    assert_eq!(texts(read, |text| text == journey).len(), 1);
}

#[test]
fn the_bit_that_goes_farthest_is_followed() {
    for (routed, read) in DRAWINGS.iter() {
        assert_followed(routed, read, routed.farthest());
    }
}

#[test]
fn any_bit_can_be_followed() {
    let routed = &DRAWINGS.iter().last().unwrap().0;
    for bit in (0..routed.width as u8).step_by(7) {
        let read = Read::of(&routed.args(&["--bit", &bit.to_string()]));
        assert_followed(routed, &read, bit);
    }
}

/// Texts, marks and bands lie apart, but for the numbers in the marks.
#[test]
fn nothing_overlaps() {
    for (_, read) in DRAWINGS.iter() {
        let (rects, texts) = (rects(&read.elements), text_areas(&read.elements));
        let rects: Vec<Area> = rects.map(Area::of_rect).collect();
        assert_apart(&rects);
        assert_apart(&texts);
        let mut within = 0;
        for text in &texts {
            for rect in rects.iter().filter(|rect| rect.meets(text)) {
                assert!(rect.holds(text), "{text:?} in {rect:?}");
                within += 1;
            }
        }
        assert_eq!(within, marks(read).len());
    }
}

#[test]
fn all_lies_on_the_sheet() {
    for (_, read) in DRAWINGS.iter() {
        let drawn = ways(read).into_values().flat_map(Element::lines);
        assert_on_sheet(&read.elements, drawn.flatten().chain(read.path()));
        let sheet = sheet(&read.elements);
        let areas = rects(&read.elements).map(Area::of_rect);
        let areas = areas.chain(text_areas(&read.elements));
        areas.for_each(|area| assert!(sheet.holds(&area), "{area:?}"));
    }
}

#[test]
fn ways_lie_in_the_bands_of_their_steps() {
    for (_, read) in DRAWINGS.iter() {
        let bands = rects(&read.elements).filter(|rect| rect.attributes["fill"] == BAND);
        let bands: Vec<Area> = bands.map(Area::of_rect).collect();
        for ((number, _), way) in ways(read) {
            for (x, y) in way.lines().concat() {
                let [x, y] = [x, y].map(|at| [at.into(); 2]);
                assert!(bands[number].holds(&Area { x, y }));
            }
        }
    }
}
