//! The legend of SVG drawings.

use super::bars::Part;
use super::canvas::{fill, stroke, Anchor, Canvas, ROUND};
use super::palette::{INK, PASS, PATH, QUIET, SHEET, SWAP};
use super::{curves, groups, pixels, Drawing};
use crate::network::Switch;
use crate::number::hex;

/// How wide the sign before a text is.
const SIGN: i32 = 30;
/// About how wide a letter is.
pub const LETTER: i32 = 7;
/// How high and wide a pixel is.
const PIXEL: i32 = 12;
/// Between an entry and the next.
const GAP: i32 = 28;

/// A sign and what it means.
pub struct Entry {
    x: i32,
    sign: Sign,
    text: String,
}

/// What is explained.
#[derive(Clone, Copy)]
enum Sign {
    Switch { passes: bool },
    Way { marked: bool },
    Path,
    Mark,
    Lit,
    Out,
    Cell(Part),
}

/// The entries for what a drawing shows, from this place on.
pub fn of(drawing: &Drawing, start: i32) -> Vec<Entry> {
    let switch = |passes, text: &str| (Sign::Switch { passes }, text.to_string());
    let mut signs = vec![
        switch(true, "pass, control bit 1"),
        switch(false, "swap, control bit 0"),
        (Sign::Path, drawing.journey()),
    ];
    if let Some(mask) = drawing.mask {
        signs.push((Sign::Mark, format!("marked by {}", hex(mask))));
    }
    entries(signs, start)
}

/// The entries for groups, from this place on.
pub fn of_groups(drawing: &groups::Drawing, start: i32) -> Vec<Entry> {
    let way = |marked, text: &str| (Sign::Way { marked }, text.to_string());
    let signs = [
        way(true, "marked in step i: to a place with bit i zero"),
        way(false, "unmarked: with bit i one"),
        (Sign::Path, drawing.groups.paths.journey(drawing.bit)),
    ];
    entries(signs, start)
}

/// The entries for pixels, whose signs are narrower, from this place on.
pub fn of_pixels(start: i32) -> Vec<Entry> {
    let signs = [(Sign::Lit, "lit"), (Sign::Out, "went out")];
    of_squares(signs, start)
}

/// The entries for the parts of bars, likewise.
pub fn of_bars(start: i32) -> Vec<Entry> {
    let signs = Part::ALL.map(|part| (Sign::Cell(part), part.meaning()));
    of_squares(signs, start)
}

/// The entries of signs that are as wide as a pixel.
fn of_squares<const N: usize>(signs: [(Sign, &str); N], start: i32) -> Vec<Entry> {
    let signs = signs.map(|(sign, text)| (sign, text.to_string()));
    entries(signs, start - (SIGN - PIXEL))
}

/// The entries of these signs and texts, side by side from this place on.
fn entries(signs: impl IntoIterator<Item = (Sign, String)>, start: i32) -> Vec<Entry> {
    let mut x = start;
    let place = |(sign, text)| {
        let entry = Entry { x, sign, text };
        x = entry.end() + GAP;
        entry
    };
    signs.into_iter().map(place).collect()
}

/// Where the last of them ends, about.
pub fn end(entries: &[Entry]) -> i32 {
    entries.last().map_or(0, Entry::end)
}

impl Entry {
    /// Where it ends, about.
    fn end(&self) -> i32 {
        self.x + SIGN + 10 + LETTER * self.text.len() as i32
    }

    /// Draws it at this height.
    pub fn draw(&self, canvas: &mut Canvas, y: i32) {
        match self.sign {
            Sign::Switch { passes } => self.switch(canvas, y, passes),
            Sign::Way { marked } => self.way(canvas, y, marked),
            Sign::Path => {
                let data = curves::line(&(self.x..self.x + SIGN), y, y);
                canvas.path(&format!("{ROUND} {}", stroke(PATH, 4.0)), &data);
            }
            Sign::Mark => {
                canvas.pill((self.x + SIGN / 2, y), (SIGN, 14), &fill(INK));
            }
            Sign::Lit => {
                canvas.path(&fill(INK), &pixels::square(self.pixel(y), PIXEL));
            }
            Sign::Out => {
                canvas.path(&pixels::out(PIXEL), &pixels::ring(self.pixel(y), PIXEL));
            }
            Sign::Cell(part) => {
                let (_, colour) = part.class_and_colour();
                canvas.path(&fill(colour), &pixels::square(self.pixel(y), PIXEL));
            }
        }
        let place = (self.x + SIGN + 10, y + 4);
        canvas.text(place, Anchor::Start, &fill(QUIET), &self.text);
    }

    /// The top left of a pixel beside the text.
    fn pixel(&self, y: i32) -> (i32, i32) {
        (self.x + SIGN - PIXEL, y - PIXEL / 2)
    }

    fn switch(&self, canvas: &mut Canvas, y: i32, passes: bool) {
        let (number, low, high) = (0, 0, 1);
        let switch = Switch {
            number,
            low,
            high,
            passes,
        };
        let x = self.x + 2..self.x + SIGN - 2;
        let height = |place| y + 6 - 12 * place as i32;
        let colour = if passes { PASS } else { SWAP };
        canvas.group(ROUND, |canvas| {
            let lines = curves::switch(switch, &x, height);
            canvas.path(&stroke(colour, 2.0), &lines);
            canvas.path(&stroke(colour, 5.0), &curves::ends(switch, &x, height));
        });
    }

    fn way(&self, canvas: &mut Canvas, y: i32, marked: bool) {
        let (inside, edge, colour) = match marked {
            true => (INK, INK, SWAP),
            false => (SHEET, PASS, PASS),
        };
        let data = curves::line(&(self.x..self.x + SIGN), y, y);
        canvas.path(&format!("{ROUND} {}", stroke(colour, 2.0)), &data);
        let look = format!(r#"{} stroke="{edge}""#, fill(inside));
        canvas.pill((self.x + SIGN / 4 + 2, y), (SIGN / 2 + 4, 12), &look);
    }
}
