//! Drawings in SVG with a wire for each place, read back.

use super::elements::{elements, Element, Point};
use super::prints;
use std::collections::HashMap;

/// A drawing, read back.
pub struct Read {
    /// Its elements.
    pub elements: Vec<Element>,
    /// The place of each height.
    places: HashMap<i32, u32>,
}

/// The place of each height, from the wires, which are drawn from the top down.
fn places(elements: &[Element]) -> HashMap<i32, u32> {
    let rails = elements.iter().filter(|element| element.is("rail"));
    let heights: Vec<i32> = rails.map(|rail| rail.lines()[0][0].1).collect();
    assert!(heights.is_sorted());
    heights.into_iter().rev().zip(0..).collect()
}

impl Read {
    /// The drawing that these arguments ask for.
    pub fn of(args: &[&str]) -> Self {
        let elements = elements(&prints(&[args, &["--svg", "-"]].concat()));
        let places = places(&elements);
        Read { elements, places }
    }

    /// The elements that have both of these numbers, by them; no two have the same.
    pub fn numbered(&self, names: [&str; 2]) -> HashMap<(usize, u32), &Element> {
        let mut numbered = HashMap::new();
        for element in &self.elements {
            let [one, other] = names.map(|name| element.attributes.get(name));
            if let (Some(one), Some(other)) = (one, other) {
                let numbers = (one.parse().unwrap(), other.parse().unwrap());
                let twice = numbered.insert(numbers, element);
                assert!(twice.is_none(), "{names:?} {numbers:?}");
            }
        }
        numbered
    }

    /// The points of the followed bit's path.
    pub fn path(&self) -> Vec<Point> {
        let paths = self.elements.iter().filter(|element| element.is("path"));
        let lines: Vec<Vec<Point>> = paths.flat_map(Element::lines).collect();
        assert_eq!(lines.len(), 1, "the path is one line");
        lines.concat()
    }

    /// The place of a point.
    pub fn place(&self, point: Point) -> u32 {
        self.places[&point.1]
    }
}
