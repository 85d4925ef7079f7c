//! Drawings in SVG.
//!
//! A place is a wire from left to right. In each stage the two wires of a
//! switch go straight on, if it passes, or cross in curves, if it swaps. The
//! followed bit's path lies on top.

use super::canvas::{stroke, Canvas};
use super::layout::{Layout, MARGIN};
use super::palette::{INK, PASS, QUIET, SWAP};
use super::wires::Wires;
use super::words::{self, Line, Marks};
use super::{curves, legend, Drawing};
use crate::network::Stage;
use crate::number::hex;
use std::iter::zip;

/// Draws in SVG.
pub fn draw(drawing: &Drawing) -> String {
    let legend = &legend::of(drawing, MARGIN);
    let layout = &Layout::of(drawing, legend::end(legend));
    let wires = Wires {
        caption: &drawing.caption,
        layout,
        paths: &drawing.paths(),
        bit: drawing.bit,
        legend,
    };
    let names = drawing.networks.iter().map(|network| network.name);
    let mask = layout.middle().zip(marks(drawing));
    wires.draw(
        |canvas| switches(canvas, drawing, layout),
        |canvas| {
            let middle = mask.as_ref().map(|(x, _)| *x);
            words::headings(canvas, names.map(String::from), middle, layout);
        },
        |canvas| {
            if let Some((x, marks)) = &mask {
                words::marks(canvas, *x, marks, layout);
            }
            footing(canvas, drawing, layout);
        },
    )
}

/// The marks between the networks, each with the number of its place.
fn marks(drawing: &Drawing) -> Option<Marks> {
    let paths = drawing.paths();
    let path = paths.of(drawing.bit);
    Some(Marks {
        mask: drawing.mask?,
        numbers: (0..drawing.width).collect(),
        followed: path[path.len() / 2],
    })
}

/// The switches: those that pass below, those that swap above them.
fn switches(canvas: &mut Canvas, drawing: &Drawing, layout: &Layout) {
    let looks = [
        (true, "pass", PASS, layout.scale.stroke),
        (false, "swap", SWAP, layout.scale.stroke + 0.4),
    ];
    let y = |place| layout.y(place);
    for (passes, class, colour, thickness) in looks {
        let mut dots = String::new();
        canvas.group(&stroke(colour, thickness), |canvas| {
            for (number, (stage, x)) in zip(drawing.stages(), &layout.stages).enumerate() {
                let of_stage = format!(r#"class="{class}" data-stage="{number}""#);
                for switch in stage.switches().filter(|switch| switch.passes == passes) {
                    let named = format!(r#"{of_stage} data-switch="{}""#, switch.number);
                    canvas.path(&named, &curves::switch(switch, x, y));
                    dots += &curves::ends(switch, x, y);
                }
            }
        });
        canvas.path(&stroke(colour, layout.scale.dot), &dots);
    }
}

/// The distance and the controls of each stage.
fn footing(canvas: &mut Canvas, drawing: &Drawing, layout: &Layout) {
    let distance = |stage: Stage| stage.distance.to_string();
    let control = |stage: Stage| hex(stage.control.into());
    let line = |name, colour, text: &dyn Fn(Stage) -> String| Line {
        name,
        colour,
        texts: drawing.stages().map(text).collect(),
    };
    let lines = [
        line("distance", QUIET, &distance),
        line("controls", INK, &control),
    ];
    words::footing(canvas, &layout.stages, &lines, layout);
}
