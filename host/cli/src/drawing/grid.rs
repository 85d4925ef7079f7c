//! Columns of characters, and what stands around them in a drawing.

use super::{is_marked, Caption};
use std::ops::Range;

/// The sign of a marked place.
pub const MARKED: char = '■';
/// The sign of one that is not.
pub const UNMARKED: char = '□';

/// The columns at the left, where the lines are labelled.
const LABEL: usize = 9;

/// Columns of characters, each from place 0 up, drawn from left to right.
pub struct Grid {
    width: u32,
    columns: Vec<Vec<char>>,
}

impl Grid {
    /// None yet, for so many places.
    pub fn new(width: u32) -> Self {
        let columns = Vec::new();
        Grid { width, columns }
    }

    /// How many columns there are.
    pub fn end(&self) -> usize {
        self.columns.len()
    }

    /// One column more, of a character for each place.
    pub fn column(&mut self, character: impl Fn(u32) -> char) {
        self.columns.push((0..self.width).map(character).collect());
    }

    /// Columns more, as many as the texts of the places are long, which is one length.
    pub fn texts(&mut self, text: impl Fn(u32) -> String) {
        let texts = (0..self.width).map(|place| text(place).chars().collect());
        let texts: Vec<Vec<char>> = texts.collect();
        for number in 0..texts[0].len() {
            let column = texts.iter().map(|text| text[number]);
            self.columns.push(column.collect());
        }
    }

    /// Texts, each in the middle of its columns.
    fn line(&self, texts: impl Iterator<Item = (Range<usize>, String)>) -> String {
        let mut line = vec![' '; self.columns.len()];
        for (columns, text) in texts {
            let start = columns.start + (columns.len().saturating_sub(text.len())) / 2;
            let end = (start + text.len()).min(line.len());
            line.splice(start..end, text.chars());
        }
        String::from_iter(line)
    }

    /// Texts above their columns, and what the labels name.
    pub fn heading(&self, texts: impl Iterator<Item = (Range<usize>, String)>) -> String {
        format!("{:>8} {} place takes", "bit", self.line(texts))
    }

    /// A line for each place, the highest first, with the bit that it takes; the
    /// path ends at this one.
    pub fn rows(&self, sources: &[u32], end: u32) -> String {
        let row = |place: u32| {
            let line = self.columns.iter().map(|column| column[place as usize]);
            let line = String::from_iter(line);
            let head = if place == end { '▶' } else { ' ' };
            let bit = sources[place as usize];
            format!("{place:>8} {line}{head}{place:>5} bit {bit}")
        };
        Vec::from_iter((0..self.width).rev().map(row)).join("\n")
    }

    /// Texts under their columns, and what they are.
    pub fn footing(
        &self,
        name: &str,
        texts: impl Iterator<Item = (Range<usize>, String)>,
    ) -> String {
        let line = self.line(texts);
        format!("{name:<LABEL$}{line}").trim_end().to_string()
    }
}

/// The sign of a place, by the mask.
pub fn mark(mask: u64, place: u32) -> char {
    match is_marked(mask, place) {
        true => MARKED,
        false => UNMARKED,
    }
}

/// A whole drawing of these parts, the legend below an empty line.
pub fn page(caption: &Caption, parts: [String; 3], legend: String) -> String {
    let Caption { title, detail } = caption;
    let head = [format!("{title}\n{detail}\n")];
    let foot = [String::new(), legend];
    let parts = head.into_iter().chain(parts).chain(foot);
    parts.map(|part| part + "\n").collect()
}
