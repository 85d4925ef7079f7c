//! Writes the elements of an SVG drawing.

use super::palette::{RULE, SHEET};
use std::ops::Range;

/// An SVG drawing as far as it is written.
pub struct Canvas {
    text: String,
    depth: usize,
}

/// How a text is set: which point of it stands at its place.
#[derive(Clone, Copy, Debug, PartialEq, Eq)]
pub enum Anchor {
    /// Its left end.
    Start,
    /// Its middle.
    Middle,
    /// Its right end.
    End,
}

/// The attributes of lines with round ends.
pub const ROUND: &str = r#"fill="none" stroke-linecap="round" stroke-linejoin="round""#;

impl Canvas {
    /// A whole drawing of this size.
    pub fn draw(size: (i32, i32), title: &str, inside: impl FnOnce(&mut Canvas)) -> String {
        let (text, depth) = (String::new(), 0);
        let mut canvas = Canvas { text, depth };
        let (width, height) = size;
        let space = r#"xmlns="http://www.w3.org/2000/svg" role="img""#;
        let view = format!(r#"viewBox="0 0 {width} {height}""#);
        let attributes = format!(r#"{space} width="{width}" height="{height}" {view}"#);
        canvas.inside("svg", &attributes, |canvas| {
            canvas.line(&format!("<title>{title}</title>"));
            inside(canvas);
        });
        canvas.text
    }

    /// The sheet behind all, of the size of the whole.
    pub fn sheet(&mut self, size: (i32, i32)) {
        let (width, height) = (size.0 - 1, size.1 - 1);
        let sheet = format!(r#"x="0.5" y="0.5" width="{width}" height="{height}" rx="12""#);
        let look = format!("{} {}", fill(SHEET), stroke(RULE, 1.0));
        self.element("rect", &format!("{sheet} {look}"));
    }

    /// A group of elements that share attributes.
    pub fn group(&mut self, attributes: &str, inside: impl FnOnce(&mut Canvas)) {
        self.inside("g", attributes, inside);
    }

    /// An element with nothing inside.
    pub fn element(&mut self, name: &str, attributes: &str) {
        self.line(&format!("<{name} {attributes}/>"));
    }

    /// A path.
    pub fn path(&mut self, attributes: &str, data: &str) {
        self.element("path", &format!(r#"{attributes} d="{data}""#));
    }

    /// A rectangle with round ends about this point.
    pub fn pill(&mut self, (x, y): (i32, i32), size: (i32, i32), attributes: &str) {
        let (width, height) = size;
        let (left, top) = (x - width / 2, y - height / 2);
        self.rect(
            left..left + width,
            top..top + height,
            height / 2,
            attributes,
        );
    }

    /// A rectangle with corners of this radius.
    pub fn rect(&mut self, x: Range<i32>, y: Range<i32>, radius: i32, attributes: &str) {
        let (width, height) = (x.end - x.start, y.end - y.start);
        let place = format!(
            r#"x="{}" y="{}" width="{width}" height="{height}""#,
            x.start, y.start
        );
        self.element("rect", &format!(r#"{place} rx="{radius}" {attributes}"#));
    }

    /// A text; it holds no character that would have to be escaped.
    pub fn text(&mut self, place: (i32, i32), anchor: Anchor, attributes: &str, text: &str) {
        let (x, y) = place;
        let anchor = match anchor {
            Anchor::Start => "start",
            Anchor::Middle => "middle",
            Anchor::End => "end",
        };
        let place = format!(r#"x="{x}" y="{y}" text-anchor="{anchor}""#);
        self.line(&format!("<text {place} {attributes}>{text}</text>"));
    }

    fn inside(&mut self, name: &str, attributes: &str, inside: impl FnOnce(&mut Canvas)) {
        self.line(&format!("<{name} {attributes}>"));
        self.depth += 1;
        inside(self);
        self.depth -= 1;
        self.line(&format!("</{name}>"));
    }

    fn line(&mut self, line: &str) {
        self.text += &"  ".repeat(self.depth);
        self.text += line;
        self.text.push('\n');
    }
}

/// The attribute of text, or of a shape, of this colour.
pub fn fill(colour: &str) -> String {
    format!(r#"fill="{colour}""#)
}

/// The attributes of a line of this colour and thickness.
pub fn stroke(colour: &str, thickness: f64) -> String {
    format!(r#"stroke="{colour}" stroke-width="{thickness:.1}""#)
}
