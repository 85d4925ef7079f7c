//! The lines of SVG drawings.

use crate::network::Switch;
use std::ops::Range;

/// On from a height to another: straight if they are one, in a curve else.
pub fn onward(x: &Range<i32>, from: i32, to: i32) -> String {
    let (middle, end) = ((x.start + x.end) / 2, x.end);
    if from == to {
        format!("H{end}")
    } else {
        format!("C{middle} {from} {middle} {to} {end} {to}")
    }
}

/// A line from one height to another.
pub fn line(x: &Range<i32>, from: i32, to: i32) -> String {
    format!("M{} {from}{}", x.start, onward(x, from, to))
}

/// Both lines of a switch.
pub fn switch(switch: Switch, x: &Range<i32>, y: impl Fn(u32) -> i32) -> String {
    let places = [switch.low, switch.high];
    let lines = places.map(|place| line(x, y(place), y(switch.carry(place))));
    lines.concat()
}

/// A dot, as thick as the line that draws it.
pub fn dot(x: i32, y: i32) -> String {
    format!("M{x} {y}h0")
}

/// Dots at the four ends of a switch.
pub fn ends(switch: Switch, x: &Range<i32>, y: impl Fn(u32) -> i32) -> String {
    let places = [switch.low, switch.high];
    let dots = places.map(|place| dot(x.start, y(place)) + &dot(x.end, y(place)));
    dots.concat()
}

/// A rectangle with its top left at this place.
pub fn block((x, y): (i32, i32), (width, height): (i32, i32)) -> String {
    format!("M{x} {y}h{width}v{height}h-{width}z")
}

/// The head of an arrow to the right, twice as high as it is long.
pub fn head(x: i32, y: i32, length: i32) -> String {
    format!("M{x} {}v{}l{length} -{length}z", y - length, 2 * length)
}
