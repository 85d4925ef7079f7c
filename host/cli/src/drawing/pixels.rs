//! Drawings of a plane before and after its lone pixels went out: one above the other,
//! the second one with marks where a pixel did.

use super::canvas::{fill, stroke, Anchor, Canvas};
use super::layout::MARGIN;
use super::palette::{BAND, INK, MONO, PATH, QUIET, RULE, SANS, SHEET};
use super::{curves, legend, words, Caption};
use crate::plane::{Despeckled, Pixel};

/// The pictures, each with whether it shows the plane after the call.
const PICTURES: [(&str, bool); 2] = [("before", false), ("after", true)];

/// The characters of pixels.
const DARK: char = '.';
const LIT: char = '#';
const OUT: char = 'o';

/// The height of the caption.
const HEAD: i32 = 78;
/// The room for the numbers of rows, and for a picture's name and those of columns.
const LABELS: (i32, i32) = (56, 26);
/// Below a picture.
const GAP: i32 = 22;
/// The height of the legend.
const LEGEND: i32 = 18;
/// Pixels below this size have no room for a ring.
const RING: i32 = 6;

/// Draws in characters, with a space between two words of a row.
pub fn text(despeckled: &Despeckled) -> String {
    let Caption { title, detail } = caption(despeckled);
    let picture = |(name, after)| format!("{name}\n{}\n", characters(despeckled, after));
    let pictures = PICTURES.map(picture).concat();
    let legend = format!("{LIT} lit  {OUT} went out  {DARK} dark");
    format!("{title}\n{detail}\n\n{pictures}{legend}\n")
}

fn caption(despeckled: &Despeckled) -> Caption {
    Caption {
        title: format!("Despeckled, {}", despeckled.shape()),
        detail: despeckled.counts(),
    }
}

/// A line for each row of the plane, before or after.
fn characters(despeckled: &Despeckled, after: bool) -> String {
    let mut lines = String::new();
    for r in 0..despeckled.rows() {
        for c in 0..despeckled.columns() {
            if c > 0 && c % 64 == 0 {
                lines.push(' ');
            }
            lines.push(match despeckled.pixel(r, c) {
                Pixel::Dark => DARK,
                Pixel::Out if after => OUT,
                Pixel::Out | Pixel::Lit => LIT,
            });
        }
        lines.push('\n');
    }
    lines
}

/// Draws in SVG.
pub fn svg(despeckled: &Despeckled) -> String {
    let entries = legend::of_pixels(MARGIN);
    let layout = &Layout::of(despeckled, legend::end(&entries));
    let caption = caption(despeckled);
    Canvas::draw(layout.size, &caption.title, |canvas| {
        canvas.sheet(layout.size);
        for ((_, after), top) in layout.pictures() {
            picture(canvas, despeckled, layout, after, top);
        }
        let words = format!(r#"font-family="{SANS}" font-size="12" fill="{INK}""#);
        canvas.group(&words, |canvas| {
            words::caption(canvas, &caption, layout.size.0);
            for ((name, _), top) in layout.pictures() {
                let place = (MARGIN, top - 10);
                canvas.text(place, Anchor::Start, r#"font-weight="600""#, name);
            }
            let y = layout.size.1 - MARGIN;
            entries.iter().for_each(|entry| entry.draw(canvas, y));
        });
        let numbers = format!(r#"font-family="{MONO}" font-size="10""#);
        canvas.group(&numbers, |canvas| {
            for (_, top) in layout.pictures() {
                labels(canvas, despeckled, layout, top);
            }
        });
    })
}

/// Where the parts of a drawing lie.
struct Layout {
    /// From a pixel to the next.
    pitch: i32,
    /// Width and height of a picture.
    picture: (i32, i32),
    /// Width and height of the whole.
    size: (i32, i32),
}

impl Layout {
    /// Lays out a drawing whose legend ends there.
    fn of(despeckled: &Despeckled, legend: i32) -> Self {
        let pitch = match despeckled.row_words {
            1 => 12,
            2 => 8,
            3..=4 => 6,
            5..=8 => 4,
            _ => 2,
        };
        let picture = [despeckled.columns(), despeckled.rows()].map(|count| pitch * count as i32);
        let [width, height] = picture;
        let right = (MARGIN + LABELS.0 + width).max(legend);
        let below = HEAD + 2 * (LABELS.1 + height + GAP) + LEGEND;
        Layout {
            pitch,
            picture: (width, height),
            size: (right + MARGIN, below + MARGIN),
        }
    }

    /// The pictures, with the height of each one's top.
    fn pictures(&self) -> impl Iterator<Item = ((&'static str, bool), i32)> + '_ {
        let first = HEAD + LABELS.1;
        let tops = (first..).step_by((self.picture.1 + GAP + LABELS.1) as usize);
        PICTURES.into_iter().zip(tops)
    }

    /// The left edge of a column.
    fn x(&self, column: usize) -> i32 {
        MARGIN + LABELS.0 + self.pitch * column as i32
    }

    /// The height and width of a pixel, which do not touch where there is room.
    fn pixel(&self) -> i32 {
        if self.pitch > 4 {
            self.pitch - 1
        } else {
            self.pitch
        }
    }

    /// Every how many rows one is numbered.
    fn numbered(&self) -> usize {
        (23 / self.pitch as usize).next_power_of_two()
    }
}

/// One picture: its ground, rules between words, and a path for the pixels of a look in
/// each row.
fn picture(canvas: &mut Canvas, despeckled: &Despeckled, layout: &Layout, after: bool, top: i32) {
    let (left, bottom) = (layout.x(0), top + layout.picture.1);
    canvas.rect(left..left + layout.picture.0, top..bottom, 0, &fill(BAND));
    for x in (1..despeckled.row_words).map(|word| layout.x(64 * word)) {
        canvas.path(&stroke(RULE, 1.0), &format!("M{x} {top}V{bottom}"));
    }
    let size = layout.pixel();
    for r in 0..despeckled.rows() {
        let (mut lit, mut gone) = (String::new(), String::new());
        for c in 0..despeckled.columns() {
            let place = (layout.x(c), top + layout.pitch * r as i32);
            match despeckled.pixel(r, c) {
                Pixel::Dark => {}
                Pixel::Out if after => gone += &ring(place, size),
                Pixel::Out | Pixel::Lit => lit += &square(place, size),
            }
        }
        let looks = [("lit", fill(INK), lit), ("out", out(size), gone)];
        for (class, look, data) in looks.iter().filter(|(_, _, data)| !data.is_empty()) {
            canvas.path(&format!(r#"class="{class}" {look}"#), data);
        }
    }
}

/// The numbers of rows, and of the columns where words begin.
fn labels(canvas: &mut Canvas, despeckled: &Despeckled, layout: &Layout, top: i32) {
    for r in (0..despeckled.rows()).step_by(layout.numbered()) {
        let y = top + layout.pitch * r as i32 + layout.pitch / 2 + 4;
        let place = (layout.x(0) - 8, y);
        canvas.text(place, Anchor::End, &fill(QUIET), &r.to_string());
    }
    for c in (0..despeckled.columns()).step_by(64) {
        let place = (layout.x(c), top - 10);
        canvas.text(place, Anchor::Start, &fill(QUIET), &c.to_string());
    }
}

/// The look of pixels of this size that went out.
pub fn out(size: i32) -> String {
    match size {
        ..RING => fill(PATH),
        _ => format!("{} {}", fill(SHEET), stroke(PATH, 2.0)),
    }
}

/// A pixel with its top left at this place.
pub fn square(place: (i32, i32), size: i32) -> String {
    curves::block(place, (size, size))
}

/// The middle of the line around a pixel that went out.
pub fn ring((x, y): (i32, i32), size: i32) -> String {
    let inset = i32::from(size >= RING);
    square((x + inset, y + inset), size - 2 * inset)
}
