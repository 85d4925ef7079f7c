//! Drawings of frames: a bar for each channel, of its guarantee, used or not, and of what
//! it used of the rest beyond that.

use super::canvas::{fill, Anchor, Canvas};
use super::layout::MARGIN;
use super::legend::{self, LETTER};
use super::palette::{INK, PASS, PATH, QUIET, SANS, SWAP};
use super::{curves, words, Caption};
use crate::bank::ended;
use crate::frames::{Carried, Share};
use crate::schedule::CHANNELS;
use std::iter::zip;

/// About how many cells the longest bar has at most: each of its parts is of whole cells.
const CELLS: u64 = 60;

/// The height of the caption.
const HEAD: i32 = 90;
/// The height of a frame's heading, of a channel, and of the space below a frame.
const HEADING: i32 = 26;
const ROW: i32 = 40;
const GAP: i32 = 16;
/// The height of the legend.
const LEGEND: i32 = 22;
/// The room for the names at the left.
const NAMES: i32 = 82;
/// From a bar to the words beside it.
const BESIDE: i32 = 16;
/// About how wide the longest bar is, and from a cell to the next at least and at most.
const BAR: i32 = 540;
const PITCH: [i32; 2] = [9, 18];
/// The height of a cell.
const CELL: i32 = 20;

/// A part of a bar.
#[derive(Clone, Copy, Debug, PartialEq, Eq)]
pub enum Part {
    /// What was used of the guarantee.
    Used,
    /// What was left of it.
    Left,
    /// What was used of the rest.
    Rest,
}

impl Part {
    /// All of them, from the left of a bar.
    pub const ALL: [Part; 3] = [Part::Used, Part::Left, Part::Rest];

    /// What it is, in words.
    pub fn meaning(self) -> &'static str {
        match self {
            Part::Used => "used of its guarantee",
            Part::Left => "left of it",
            Part::Rest => "used of the rest",
        }
    }

    /// The character of its cells.
    fn character(self) -> char {
        match self {
            Part::Used => '■',
            Part::Left => '□',
            Part::Rest => '+',
        }
    }

    /// Its name in SVG, and the colour of its cells.
    pub fn class_and_colour(self) -> (&'static str, &'static str) {
        match self {
            Part::Used => ("used", SWAP),
            Part::Left => ("left", PASS),
            Part::Rest => ("rest", PATH),
        }
    }

    /// Its cycles.
    fn of(self, share: &Share) -> u32 {
        match self {
            Part::Used => share.used,
            Part::Left => share.guarantee - share.used,
            Part::Rest => share.from_rest,
        }
    }
}

/// How many cycles a cell has, the last one of a part maybe less; and the cells of the
/// longest bar.
struct Scale {
    cycles: u64,
    longest: usize,
}

impl Scale {
    /// One for all these frames.
    fn of(frames: &[Carried]) -> Self {
        let shares = || frames.iter().flat_map(|frame| &frame.shares);
        let cycles = |share: &Share| u64::from(share.guarantee) + u64::from(share.from_rest);
        let most = shares().map(cycles).max().unwrap_or(0);
        let mut scale = Scale {
            cycles: most.div_ceil(CELLS).max(1),
            longest: 0,
        };
        let lengths = shares().map(|share| scale.bar(share).map(|(_, cells)| cells).iter().sum());
        scale.longest = lengths.max().unwrap_or(0);
        scale
    }

    /// The parts of a bar, with their cells.
    fn bar(&self, share: &Share) -> [(Part, usize); 3] {
        let cells = |part: Part| u64::from(part.of(share)).div_ceil(self.cycles) as usize;
        Part::ALL.map(|part| (part, cells(part)))
    }

    /// What a cell is, in words.
    fn told(&self) -> String {
        match self.cycles {
            1 => "a cell is a cycle".to_string(),
            cycles => format!("a cell is up to {cycles} cycles"),
        }
    }
}

/// Draws each of these frames in characters, on one scale, with a legend below it.
pub fn texts(frames: &[Carried]) -> impl Iterator<Item = String> + '_ {
    let scale = Scale::of(frames);
    let legend = Part::ALL.map(|part| format!("{} {}  ", part.character(), part.meaning()));
    let legend = legend.concat() + &scale.told();
    (1..).zip(frames).map(move |(number, frame)| {
        let mut lines = format!("frame {number}: {}\n", frame.used());
        for (channel, share) in frame.shares.iter().enumerate() {
            let cells = |(part, cells): (Part, usize)| part.character().to_string().repeat(cells);
            let bar = scale.bar(share).map(cells).concat();
            let (longest, used) = (scale.longest, share.used());
            lines += &format!("channel {channel}  {bar:<longest$}  {used}\n");
        }
        lines + &legend + "\n"
    })
}

/// Draws all these frames in SVG, one below the other.
pub fn svg(frames: &[Carried]) -> String {
    let scale = Scale::of(frames);
    let layout = &Layout::of(frames, &scale);
    let entries = legend::of_bars(MARGIN);
    let caption = Caption {
        title: match frames.len() {
            1 => "Four channels in one frame".to_string(),
            count => format!("Four channels in {count} frames"),
        },
        detail: scale.told(),
    };
    let size = (
        layout.width.max(legend::end(&entries)) + MARGIN,
        height(frames.len()) + LEGEND + MARGIN,
    );
    Canvas::draw(size, &caption.title, |canvas| {
        canvas.sheet(size);
        for (number, frame) in frames.iter().enumerate() {
            bars(canvas, &scale, frame, number, layout);
        }
        let words = format!(r#"font-family="{SANS}" font-size="12" fill="{INK}""#);
        canvas.group(&words, |canvas| {
            words::caption(canvas, &caption, size.0);
            for (number, frame) in frames.iter().enumerate() {
                beside(canvas, frame, number, layout);
            }
            let y = size.1 - MARGIN;
            entries.iter().for_each(|entry| entry.draw(canvas, y));
        });
    })
}

/// Where the parts of a drawing lie.
struct Layout {
    /// From a cell to the next.
    pitch: i32,
    /// Where the words beside the bars begin.
    beside: i32,
    /// The width of all but the margin at the right.
    width: i32,
}

impl Layout {
    fn of(frames: &[Carried], scale: &Scale) -> Self {
        let longest = scale.longest.max(1) as i32;
        let pitch = (BAR / longest).clamp(PITCH[0], PITCH[1]);
        let beside = MARGIN + NAMES + pitch * longest + BESIDE;
        let end = |start: i32, text: String| start + LETTER * text.len() as i32;
        let headings = frames.iter().map(|frame| end(MARGIN + NAMES, frame.used()));
        let shares = frames.iter().flat_map(|frame| &frame.shares);
        let words = shares.flat_map(|share| [share.used(), ended(share.run)]);
        let ends = headings.chain(words.map(|text| end(beside, text)));
        Layout {
            pitch,
            beside,
            width: ends.max().unwrap_or(0),
        }
    }
}

/// How far so many frames go down.
fn height(frames: usize) -> i32 {
    HEAD + frames as i32 * (HEADING + ROW * CHANNELS as i32 + GAP)
}

/// The channels of a frame, with the height of each one's middle.
fn rows(frame: &Carried, number: usize) -> impl Iterator<Item = (usize, &Share, i32)> {
    let heights = (height(number) + HEADING + ROW / 2..).step_by(ROW as usize);
    let shares = zip(&frame.shares, heights).enumerate();
    shares.map(|(channel, (share, y))| (channel, share, y))
}

/// The bars of a frame, a path for each part.
fn bars(canvas: &mut Canvas, scale: &Scale, frame: &Carried, number: usize, layout: &Layout) {
    for (channel, share, y) in rows(frame, number) {
        let mut x = MARGIN + NAMES;
        let parts = scale.bar(share).into_iter();
        for (part, cells) in parts.filter(|(_, cells)| *cells > 0) {
            let (class, colour) = part.class_and_colour();
            let size = (layout.pitch - 1, CELL);
            let places = (x..).step_by(layout.pitch as usize).take(cells);
            let data = places.map(|x| curves::block((x, y - CELL / 2), size));
            let of = format!(r#"data-frame="{number}" data-channel="{channel}""#);
            let look = format!(r#"class="{class}" {of} {}"#, fill(colour));
            canvas.path(&look, &String::from_iter(data));
            x += layout.pitch * cells as i32;
        }
    }
}

/// The words of a frame: over its bars what was used in it, beside each what its channel
/// did.
fn beside(canvas: &mut Canvas, frame: &Carried, number: usize, layout: &Layout) {
    let (bold, ink, quiet) = (r#"font-weight="600""#, &fill(INK), &fill(QUIET));
    let y = height(number) + 12;
    let name = format!("frame {}", number + 1);
    canvas.text((MARGIN, y), Anchor::Start, bold, &name);
    canvas.text((MARGIN + NAMES, y), Anchor::Start, quiet, &frame.used());
    for (channel, share, y) in rows(frame, number) {
        let name = format!("channel {channel}");
        canvas.text((MARGIN, y + 4), Anchor::Start, ink, &name);
        let x = layout.beside;
        canvas.text((x, y - 3), Anchor::Start, ink, &share.used());
        canvas.text((x, y + 12), Anchor::Start, quiet, &ended(share.run));
    }
}
