//! Drawings of groups, step by step: the bits at their places, those that the step's mask
//! marks told apart, then the way of each to its place before the next step.

use super::canvas::{stroke, Canvas};
use super::grid::{mark, page, Grid, MARKED, UNMARKED};
use super::layout::{Layout, MARGIN};
use super::palette::{INK, PASS, SWAP};
use super::wires::Wires;
use super::words::{self, Line, Marks};
use super::{curves, is_marked, legend, Caption};
use crate::groups::Groups;
use crate::number::hex;
use std::cmp::Ordering;
use std::iter::zip;
use std::ops::Range;

/// What is drawn: groups, and a bit's path through them.
pub struct Drawing {
    /// What stands over it.
    pub caption: Caption,
    /// The groups.
    pub groups: Groups,
    /// The bit to follow.
    pub bit: u32,
}

/// A bit's way in a step.
struct Way {
    /// The step's number.
    step: usize,
    /// The bit.
    bit: u32,
    /// Whether it is marked.
    marked: bool,
    /// Its places before the step and after it.
    places: [u32; 2],
}

impl Drawing {
    /// The ways of all bits, step by step.
    fn ways(&self) -> impl Iterator<Item = Way> + '_ {
        let Groups {
            width,
            masks,
            paths,
        } = &self.groups;
        let way = |step, mask, bit| {
            let path = paths.of(bit);
            let places = [path[step], path[step + 1]];
            let marked = is_marked(mask, places[0]);
            Way {
                step,
                bit,
                marked,
                places,
            }
        };
        let steps = masks.iter().enumerate();
        steps.flat_map(move |(step, &mask)| (0..*width).map(move |bit| way(step, mask, bit)))
    }

    /// The marks of each step, with the bits at their places.
    fn marks(&self) -> impl Iterator<Item = Marks> + '_ {
        let Groups { masks, paths, .. } = &self.groups;
        let marks = |(number, &mask)| Marks {
            mask,
            numbers: paths.contents(number),
            followed: paths.of(self.bit)[number],
        };
        masks.iter().enumerate().map(marks)
    }

    /// The names of the steps.
    fn names(&self) -> impl Iterator<Item = String> {
        (0..self.groups.masks.len()).map(|number| format!("step {number}"))
    }

    /// Their masks as they are printed.
    fn masks(&self) -> impl Iterator<Item = String> + '_ {
        self.groups.masks.iter().map(|&mask| hex(mask))
    }
}

/// Draws in characters.
///
/// A place is a line of text. In each step it has its mark and the bit that is there; the
/// followed bit's path is heavy.
pub fn text(drawing: &Drawing) -> String {
    let Groups { width, paths, .. } = &drawing.groups;
    let path = paths.of(drawing.bit);
    let mut grid = Grid::new(*width);
    let steps = zip(drawing.marks(), &path[1..]);
    let steps: Vec<Range<usize>> = steps
        .map(|(marks, &to)| step(&mut grid, &marks, to))
        .collect();
    let end = paths.end(drawing.bit);
    heavy(&mut grid, end, 1);
    let parts = [
        grid.heading(zip(steps.iter().cloned(), drawing.names())),
        grid.rows(&paths.sources(), end),
        grid.footing("masks", zip(steps.iter().cloned(), drawing.masks())),
    ];
    let marked = format!("{MARKED} marked in step i: to a place with bit i zero");
    let legend = format!(
        "{marked}  {UNMARKED} with bit i one  ━ {}",
        paths.journey(drawing.bit)
    );
    page(&drawing.caption, parts, legend)
}

/// Draws a step and answers its columns, as many as the mask needs: the marks in the middle,
/// and at the end the followed bit's way to this place.
fn step(grid: &mut Grid, marks: &Marks, to: u32) -> Range<usize> {
    let Marks {
        mask,
        numbers,
        followed,
    } = marks;
    let start = grid.end();
    let digits = (numbers.len() - 1).to_string().len();
    let spare = (hex(*mask).len() + 2).saturating_sub(digits + 4).max(6);
    heavy(grid, *followed, spare / 2);
    grid.texts(|place| {
        let number = numbers[place as usize];
        format!(" {} {number:>digits$} ", mark(*mask, place))
    });
    heavy(grid, *followed, spare.div_ceil(2) - 1);
    grid.column(|place| lane(*followed, to, place));
    start..grid.end()
}

/// So many columns of a heavy line at this place.
fn heavy(grid: &mut Grid, at: u32, count: usize) {
    for _ in 0..count {
        grid.column(|place| lane(at, at, place));
    }
}

/// What a heavy line from one place to another has at a third.
fn lane(from: u32, to: u32, place: u32) -> char {
    let [bend, turn] = match to.cmp(&from) {
        Ordering::Less => ['┓', '┗'],
        Ordering::Equal => ['━', '━'],
        Ordering::Greater => ['┛', '┏'],
    };
    if place == from {
        bend
    } else if place == to {
        turn
    } else if (from.min(to)..from.max(to)).contains(&place) {
        '┃'
    } else {
        ' '
    }
}

/// Draws in SVG.
pub fn svg(drawing: &Drawing) -> String {
    let legend = &legend::of_groups(drawing, MARGIN);
    let layout = &Layout::of_groups(&drawing.groups, legend::end(legend));
    let wires = Wires {
        caption: &drawing.caption,
        layout,
        paths: &drawing.groups.paths,
        bit: drawing.bit,
        legend,
    };
    wires.draw(
        |canvas| ways(canvas, drawing, layout),
        |canvas| words::headings(canvas, drawing.names(), None, layout),
        |canvas| {
            for (marks, step) in zip(drawing.marks(), &layout.parts) {
                let middle = step.start + layout.scale.mark().size.0 / 2;
                words::marks(canvas, middle, &marks, layout);
            }
            let masks = Line {
                name: "masks",
                colour: INK,
                texts: drawing.masks().collect(),
            };
            words::footing(canvas, &layout.parts, &[masks], layout);
        },
    )
}

/// The bits' ways: those of unmarked bits below, those of marked ones above them.
fn ways(canvas: &mut Canvas, drawing: &Drawing, layout: &Layout) {
    let looks = [
        (false, "unmarked-way", PASS, layout.scale.stroke),
        (true, "marked-way", SWAP, layout.scale.stroke + 0.4),
    ];
    for (marked, class, colour, thickness) in looks {
        let mut dots = String::new();
        canvas.group(&stroke(colour, thickness), |canvas| {
            for way in drawing.ways().filter(|way| way.marked == marked) {
                let x = &layout.stages[way.step];
                let [from, to] = way.places.map(|place| layout.y(place));
                let numbers = format!(r#"data-step="{}" data-bit="{}""#, way.step, way.bit);
                let named = format!(r#"class="{class}" {numbers}"#);
                canvas.path(&named, &curves::line(x, from, to));
                dots += &curves::dot(x.start, from);
                dots += &curves::dot(x.end, to);
            }
        });
        canvas.path(&stroke(colour, layout.scale.dot), &dots);
    }
}
