//! The words and numbers of SVG drawings.

use super::canvas::{fill, stroke, Anchor, Canvas};
use super::layout::{padded, Layout, Mark, MARGIN, PAD};
use super::palette::{INK, PASS, PATH, QUIET, RULE, SANS, SHEET};
use super::{curves, is_marked, Caption};
use std::iter::zip;
use std::ops::Range;

/// Title and detail, cut off where the sheet, which is so wide, ends.
pub fn caption(canvas: &mut Canvas, caption: &Caption, width: i32) {
    let Caption { title, detail } = caption;
    let look = r#"font-size="19" font-weight="600""#;
    canvas.text((MARGIN, MARGIN + 14), Anchor::Start, look, title);
    let room = (width - 2 * MARGIN) / 8;
    let look = format!(r#"font-size="13" {}"#, fill(QUIET));
    canvas.text(
        (MARGIN, MARGIN + 37),
        Anchor::Start,
        &look,
        &shortened(detail, room as usize),
    );
}

/// As many entries of a text as have room.
fn shortened(text: &str, room: usize) -> String {
    let Some((end, _)) = text.char_indices().nth(room) else {
        return text.to_string();
    };
    let end = text[..end].rfind(',').unwrap_or(end);
    format!("{}, …", &text[..end])
}

/// The names of the parts over them, and what the labels name; where the mask stands, if
/// there is one, too.
pub fn headings(
    canvas: &mut Canvas,
    names: impl Iterator<Item = String>,
    mask: Option<i32>,
    layout: &Layout,
) {
    let y = layout.band().start - 14;
    for (name, x) in zip(names, &layout.parts) {
        let middle = (x.start + x.end) / 2;
        let look = r#"font-size="13" font-weight="600""#;
        canvas.text((middle, y), Anchor::Middle, look, &name);
        let half = 14 + 4 * name.len() as i32;
        let Range { start, end } = padded(x);
        let rules = [start..middle - half, middle + half..end];
        let rules = rules.map(|x| curves::line(&x, y - 4, y - 4));
        canvas.path(&stroke(RULE, 1.0), &rules.concat());
    }
    let [bit, place, takes] = layout.labels();
    let names = [
        (Some(bit), Anchor::End, "bit"),
        (mask, Anchor::Middle, "mask"),
        (Some(place), Anchor::End, "place"),
        (Some(takes), Anchor::Start, "takes"),
    ];
    for (x, anchor, name) in names {
        if let Some(x) = x {
            canvas.text((x, y), anchor, &fill(QUIET), name);
        }
    }
}

/// Where text of this size stands, if its middle is to be at this height.
fn baseline(y: i32, font: i32) -> i32 {
    y + font / 3 + 1
}

/// The labels of the places at both ends; those of the followed bit stand out.
pub fn labels(canvas: &mut Canvas, sources: &[u32], followed: u32, layout: &Layout) {
    let [left, right, takes] = layout.labels();
    for (place, &source) in (0..).zip(sources) {
        let y = baseline(layout.y(place), layout.scale.font);
        let look = |bit: u32, otherwise: &str| match bit == followed {
            true => format!(r#"{} font-weight="700""#, fill(PATH)),
            false => fill(otherwise),
        };
        let (name, bit) = (place.to_string(), format!("bit {source}"));
        canvas.text((left, y), Anchor::End, &look(place, INK), &name);
        canvas.text((right, y), Anchor::End, &look(source, INK), &name);
        canvas.text((takes, y), Anchor::Start, &look(source, QUIET), &bit);
    }
}

/// The marks of a mask.
pub struct Marks {
    /// The mask.
    pub mask: u64,
    /// The number that stands at each place.
    pub numbers: Vec<u32>,
    /// The place of the followed bit.
    pub followed: u32,
}

/// A pill for each place, full if it is marked, about this place from the left.
pub fn marks(canvas: &mut Canvas, x: i32, marks: &Marks, layout: &Layout) {
    let Mark { size, font } = layout.scale.mark();
    for (place, number) in (0..).zip(&marks.numbers) {
        let followed = marks.followed == place;
        let (class, inside, edge, ink) = match (is_marked(marks.mask, place), followed) {
            (true, true) => ("marked", PATH, PATH, SHEET),
            (true, false) => ("marked", INK, INK, SHEET),
            (false, true) => ("unmarked", SHEET, PATH, PATH),
            (false, false) => ("unmarked", SHEET, PASS, QUIET),
        };
        let y = layout.y(place);
        let look = format!(r#"class="{class}" {} stroke="{edge}""#, fill(inside));
        canvas.pill((x, y), size, &look);
        let look = format!(r#"font-size="{font}" {}"#, fill(ink));
        let at = (x, baseline(y, font));
        canvas.text(at, Anchor::Middle, &look, &number.to_string());
    }
}

/// A line of texts under the drawing.
pub struct Line {
    /// What they are.
    pub name: &'static str,
    /// Their colour.
    pub colour: &'static str,
    /// The texts from left to right.
    pub texts: Vec<String>,
}

/// Lines below each other, with the texts of each under these ranges.
pub fn footing(canvas: &mut Canvas, under: &[Range<i32>], lines: &[Line], layout: &Layout) {
    let heights = (layout.band().end + 22..).step_by(20);
    let lines = Vec::from_iter(zip(heights, lines));
    let named = format!(r#"font-family="{SANS}" font-size="12" {}"#, fill(QUIET));
    let left = padded(&under[0]).start - PAD;
    for (y, line) in &lines {
        canvas.text((left, *y), Anchor::End, &named, line.name);
    }
    for (number, x) in under.iter().enumerate() {
        let middle = (x.start + x.end) / 2;
        for (y, line) in &lines {
            let (look, text) = (fill(line.colour), &line.texts[number]);
            canvas.text((middle, *y), Anchor::Middle, &look, text);
        }
    }
}
