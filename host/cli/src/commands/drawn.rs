//! The answer of a command that draws: drawings, or what it prints without them.

use crate::answer::Answer;
use crate::args::{unexpected, Given};
use crate::command::Choice;
use crate::drawing::{svg, text, Drawing};
use crate::failure::Failure;
use crate::number::Base;

/// The options of a command that draws the paths of bits, the first of which does this.
pub const fn choices(text: &'static str) -> [Choice; 3] {
    [
        Choice::flag("--text", text),
        SVG,
        Choice::valued(
            "--bit",
            "N",
            "the bit to follow; else the one that goes farthest",
        ),
    ]
}

/// The option of a drawing in a file.
pub const SVG: Choice = Choice::valued(
    "--svg",
    "FILE",
    "draw them into the file, or with - to the output",
);

/// What there is to know about them.
pub const NOTES: &str = "\
In drawings a word enters at the left with bit 0 at the bottom, and the path of one
bit stands out.
";

/// The file name that means the standard output.
const OUTPUT: &str = "-";

/// The answer of a command that finds controls: these, or the drawings asked for.
pub fn answer(given: &Given, drawing: Drawing) -> Result<Answer, Failure> {
    let drawing = Drawing {
        bit: followed(given, drawing.width, drawing.bit)?,
        ..drawing
    };
    let forms = Forms {
        plain: || controls(&drawing),
        text: || text::draw(&drawing),
        svg: || svg::draw(&drawing),
    };
    forms.asked_for(given)
}

/// What there is to print: without a drawing, as one in characters, and as one in SVG.
pub struct Forms<P, T, S> {
    /// Without a drawing.
    pub plain: P,
    /// In characters, by `--text`.
    pub text: T,
    /// In SVG, by `--svg`.
    pub svg: S,
}

impl<P, T, S> Forms<P, T, S>
where
    P: Fn() -> String,
    T: Fn() -> String,
    S: Fn() -> String,
{
    /// The answer in the forms asked for.
    pub fn asked_for(&self, given: &Given) -> Result<Answer, Failure> {
        let svg = given.option("--svg").map(|name| name.text());
        if svg == Some(OUTPUT) {
            if given.has("--text") {
                let problem = "--svg - and --text both write to the output";
                return Err(Failure::argument(problem.to_string()));
            }
            return Ok(Answer::of((self.svg)()));
        }
        let output = if given.has("--text") {
            (self.text)()
        } else {
            (self.plain)()
        };
        let file = svg.map(|name| (name.to_string(), (self.svg)()));
        Ok(Answer {
            file,
            ..Answer::of(output)
        })
    }
}

/// The bit to follow: the one asked for, or else this one.
pub fn followed(given: &Given, width: u32, otherwise: u32) -> Result<u32, Failure> {
    let Some(text) = given.option("--bit") else {
        return Ok(otherwise);
    };
    if !given.has("--svg") && !given.has("--text") {
        let problem = "--bit needs a drawing, by --svg or --text";
        return Err(Failure::argument(problem.to_string()));
    }
    let bit = text.number(Base::Decimal)?;
    if bit >= width {
        let expected = format!("a bit of the width, from 0 to {}", width - 1);
        return Err(unexpected("--bit", text.text(), &expected));
    }
    Ok(bit)
}

/// A line for each network.
fn controls(drawing: &Drawing) -> String {
    let networks = drawing.networks.iter();
    networks.map(|network| format!("{network}\n")).collect()
}
