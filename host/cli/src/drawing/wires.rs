//! What SVG drawings with a wire for each place have in common: rails between
//! stages, the followed bit's path on top, and words around.

use super::canvas::{fill, stroke, Canvas, ROUND};
use super::layout::{padded, Layout, Scale, MARGIN, PAD};
use super::legend::Entry;
use super::palette::{BAND, INK, MONO, PASS, PATH, SANS, SHEET};
use super::{curves, words, Caption};
use crate::paths::Paths;
use std::iter::zip;
use std::ops::Range;

/// A drawing with a wire for each place.
pub struct Wires<'a> {
    /// What stands over it.
    pub caption: &'a Caption,
    /// Where its parts lie.
    pub layout: &'a Layout,
    /// The bits' paths through its stages.
    pub paths: &'a Paths,
    /// The bit to follow.
    pub bit: u32,
    /// Its legend.
    pub legend: &'a [Entry],
}

impl Wires<'_> {
    /// Draws it, with these lines in its stages, these headings, and these numbers
    /// among the labels.
    pub fn draw(
        &self,
        lines: impl FnOnce(&mut Canvas),
        headings: impl FnOnce(&mut Canvas),
        numbers: impl FnOnce(&mut Canvas),
    ) -> String {
        let layout = self.layout;
        Canvas::draw(layout.size, &self.caption.title, |canvas| {
            background(canvas, layout);
            canvas.group(ROUND, |canvas| {
                rails(canvas, layout);
                lines(canvas);
                followed(canvas, self.paths.of(self.bit), layout);
            });
            let words = format!(r#"font-family="{SANS}" font-size="12" fill="{INK}""#);
            canvas.group(&words, |canvas| {
                words::caption(canvas, self.caption, layout.size.0);
                headings(canvas);
                let y = layout.size.1 - MARGIN;
                self.legend.iter().for_each(|entry| entry.draw(canvas, y));
            });
            let size = layout.scale.font;
            let look = format!(r#"font-family="{MONO}" font-size="{size}" fill="{INK}""#);
            canvas.group(&look, |canvas| {
                words::labels(canvas, &self.paths.sources(), self.bit, layout);
                numbers(canvas);
            });
        })
    }
}

/// The sheet, and a band behind each stage.
fn background(canvas: &mut Canvas, layout: &Layout) {
    canvas.sheet(layout.size);
    for x in &layout.stages {
        canvas.rect(padded(x), layout.band(), PAD, &fill(BAND));
    }
}

/// The wires before, between and after the stages.
fn rails(canvas: &mut Canvas, layout: &Layout) {
    canvas.group(&stroke(PASS, layout.scale.stroke), |canvas| {
        for place in (0..layout.width).rev() {
            let y = layout.y(place);
            let lines = layout.rails().map(|x| curves::line(&x, y, y));
            canvas.path(r#"class="rail""#, &String::from_iter(lines));
        }
    });
}

/// The followed bit's path, with a halo: a disc where it starts, a ring at the
/// ends of each stage, a head where it ends.
fn followed(canvas: &mut Canvas, path: &[u32], layout: &Layout) {
    let Scale {
        stroke: thin, dot, ..
    } = layout.scale;
    let heights: Vec<i32> = path.iter().map(|&place| layout.y(place)).collect();
    let Range { start, end } = layout.wires;
    let mut line = format!("M{start} {}", heights[0]);
    let mut rings = String::new();
    for (x, heights) in zip(&layout.stages, heights.windows(2)) {
        line += &format!("H{}{}", x.start, curves::onward(x, heights[0], heights[1]));
        rings += &curves::dot(x.start, heights[0]);
        rings += &curves::dot(x.end, heights[1]);
    }
    line += &format!("H{end}");
    let thick = 1.6 * thin + 1.2;
    canvas.path(&stroke(SHEET, thick + 4.0), &line);
    canvas.path(&format!(r#"class="path" {}"#, stroke(PATH, thick)), &line);
    canvas.path(&stroke(PATH, dot + 1.5), &rings);
    canvas.path(&stroke(SHEET, 0.5 * dot), &rings);
    canvas.path(&stroke(PATH, dot + 4.0), &curves::dot(start, heights[0]));
    let head = curves::head(end, heights[heights.len() - 1], dot as i32 + 1);
    canvas.path(&format!("{} {}", fill(PATH), stroke(PATH, 2.0)), &head);
}
