//! Drawings in SVG, read back.

mod support;

use std::collections::{HashMap, HashSet};
use std::sync::LazyLock;
use support::drawn::{calls, switches, Call};
use support::elements::{assert_on_sheet, Element, Point};
use support::wires::Read;
use support::{list, prints};

/// The elements that draw switches, by number of stage and switch; each switch has
/// one.
fn drawn_switches(read: &Read) -> HashMap<(usize, u32), &Element> {
    read.numbered(["data-stage", "data-switch"])
}

/// Every call, and its drawing.
static DRAWINGS: LazyLock<Vec<(Call, Read)>> = LazyLock::new(|| {
    let drawn = |call: Call| {
        let read = Read::of(&call.args());
        (call, read)
    };
    calls().into_iter().map(drawn).collect()
});

#[test]
fn every_switch_is_drawn_once_as_its_control_says() {
    for (call, read) in DRAWINGS.iter() {
        let drawn = drawn_switches(read);
        let switches = switches(call.width, &prints(&call.args()));
        assert_eq!(drawn.len(), switches.len());
        for switch in switches {
            let element = drawn[&(switch.stage, switch.number)];
            assert!(element.is(if switch.passes { "pass" } else { "swap" }));
            let [low, high] = switch.places;
            let to = if switch.passes {
                [low, high]
            } else {
                [high, low]
            };
            let ends = |line: &[Point]| [line[0], line[1]].map(|point| read.place(point));
            let ends: Vec<[u32; 2]> = element.lines().iter().map(|line| ends(line)).collect();
            assert_eq!(ends, [[low, to[0]], [high, to[1]]]);
        }
    }
}

#[test]
fn the_path_ends_where_the_permutation_says() {
    for (call, read) in DRAWINGS.iter() {
        let path = read.path();
        let (bit, place) = (read.place(path[0]), read.place(path[path.len() - 1]));
        assert_eq!(u32::from(call.permutation[place as usize]), bit);
    }
}

/// Between two stages the path keeps its place, in a stage it lies on a line of
/// a switch.
#[test]
fn the_path_lies_on_the_lines() {
    for (_, read) in DRAWINGS.iter() {
        let lines = drawn_switches(read).into_values().flat_map(Element::lines);
        let lines: HashSet<Vec<Point>> = lines.collect();
        let path = read.path();
        let within = &path[1..path.len() - 1];
        assert!(within.chunks(2).all(|ends| lines.contains(ends)));
        assert!(path.chunks(2).all(|ends| ends[0].1 == ends[1].1));
    }
}

#[test]
fn any_bit_can_be_followed() {
    let permutation = [0, 4, 2, 3, 1, 5, 6, 7];
    let route = ["route", "8", &list(&permutation)];
    for (place, bit) in (0..).zip(permutation) {
        let read = Read::of(&[&route[..], &["--bit", &bit.to_string()]].concat());
        let path = read.path();
        assert_eq!(read.place(path[0]), u32::from(bit));
        assert_eq!(read.place(path[path.len() - 1]), place);
    }
}

#[test]
fn marked_places_are_full() {
    let read = Read::of(&["decode", "8", "0xAD"]);
    let marks = ["unmarked", "marked"];
    let is_mark = |element: &&Element| marks.iter().any(|class| element.is(class));
    let drawn: Vec<&Element> = read.elements.iter().filter(is_mark).collect();
    assert_eq!(drawn.len(), 8);
    for (place, mark) in drawn.into_iter().enumerate() {
        let marked = 0xAD >> place & 1 == 1;
        assert!(mark.is(marks[usize::from(marked)]), "place {place}");
        assert_eq!(mark.attributes["fill"] != "#ffffff", marked);
    }
}

/// What is drawn lies on the sheet, whose size is told.
#[test]
fn all_lies_on_the_sheet() {
    for (_, read) in DRAWINGS.iter() {
        let drawn = drawn_switches(read).into_values().flat_map(Element::lines);
        assert_on_sheet(&read.elements, drawn.flatten().chain(read.path()));
    }
}
