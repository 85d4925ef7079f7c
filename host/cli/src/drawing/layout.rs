//! Where the parts of an SVG drawing lie.

use super::Drawing;
use crate::groups::Groups;
use crate::network::Network;
use std::ops::Range;

/// What is left free around all.
pub const MARGIN: i32 = 28;
/// From the places down to the legend.
const LEGEND: i32 = 92;
/// From a stage to the edges of its band.
pub const PAD: i32 = 9;

/// The height of title and headings.
const HEAD: i32 = 116;
/// The room for labels at the left and at the right.
const LABELS: [i32; 2] = [62, 104];
/// From the ends of the wires to the stages.
const LEAD: i32 = 24;
/// Between the networks, without a mask and with one.
const MIDDLE: [i32; 2] = [56, 96];
/// From the marks of a step to the band of its stage.
const MARK_GAP: i32 = 12;

/// Sizes that depend on how many places there are.
#[derive(Clone, Copy, Debug, PartialEq)]
pub struct Scale {
    /// From a place to the next.
    pub row: i32,
    /// Between the stages of a network.
    pub gap: i32,
    /// The size of the labels.
    pub font: i32,
    /// How thick wires are.
    pub stroke: f64,
    /// How thick dots are.
    pub dot: f64,
}

/// The sizes of a mark.
pub struct Mark {
    /// Width and height.
    pub size: (i32, i32),
    /// The size of the number in it.
    pub font: i32,
}

/// Where the parts of a drawing lie.
pub struct Layout {
    /// How many places there are.
    pub width: u32,
    /// The sizes.
    pub scale: Scale,
    /// From the left to the right end of the wires.
    pub wires: Range<i32>,
    /// The stages, from left to right.
    pub stages: Vec<Range<i32>>,
    /// The networks or the steps, from left to right.
    pub parts: Vec<Range<i32>>,
    /// The highest and the lowest place.
    pub rows: Range<i32>,
    /// Width and height of the whole.
    pub size: (i32, i32),
}

/// A stage with its band, from left to right.
pub fn padded(stage: &Range<i32>) -> Range<i32> {
    stage.start - PAD..stage.end + PAD
}

impl Scale {
    fn of(width: u32) -> Self {
        let (row, gap, font, stroke, dot) = match width {
            ..=8 => (36, 32, 14, 2.0, 6.5),
            9..=16 => (28, 28, 13, 1.7, 5.5),
            17..=32 => (20, 26, 12, 1.4, 4.5),
            _ => (16, 24, 11, 1.2, 3.6),
        };
        Scale {
            row,
            gap,
            font,
            stroke,
            dot,
        }
    }

    /// How wide a stage is: the more places its lines reach across, the wider.
    fn span(self, reach: u32) -> i32 {
        let reach = reach as i32 * self.row;
        44 + 6 * reach.isqrt()
    }

    /// The sizes of a mark.
    pub fn mark(self) -> Mark {
        let height = (self.row - 4).min(self.font + 8);
        let font = self.font.min(height - 3);
        let size = (font * 5 / 2, height);
        Mark { size, font }
    }
}

impl Layout {
    /// Lays out a drawing of networks whose legend ends there.
    pub fn of(drawing: &Drawing, legend: i32) -> Self {
        let scale = Scale::of(drawing.width);
        let spans = |network: &Network| {
            let stages = network.stages.iter();
            stages.map(|stage| scale.span(stage.distance)).collect()
        };
        let parts = drawing.networks.iter().map(spans);
        let between = MIDDLE[usize::from(drawing.mask.is_some())];
        Layout::side_by_side(drawing.width, parts, [0, between], legend)
    }

    /// Lays out a drawing of groups whose legend ends there. A step has its marks
    /// before its stage. Its mask has room below: the longer it is, the farther its
    /// highest mark goes down.
    pub fn of_groups(groups: &Groups, legend: i32) -> Self {
        let scale = Scale::of(groups.width);
        let before = scale.mark().size.0 + MARK_GAP + PAD;
        let spans = |step| vec![scale.span(groups.paths.reach(step))];
        let parts = (0..groups.masks.len()).map(spans);
        Layout::side_by_side(groups.width, parts, [before, scale.gap], legend)
    }

    /// Lays out parts of so wide stages, with so much room before the stages of
    /// each, and between two of them.
    fn side_by_side(
        width: u32,
        spans: impl Iterator<Item = Vec<i32>>,
        [before, between]: [i32; 2],
        legend: i32,
    ) -> Self {
        let scale = Scale::of(width);
        let start = MARGIN + LABELS[0];
        let mut x = start + LEAD - between;
        let (mut stages, mut parts) = (Vec::new(), Vec::new());
        for spans in spans {
            x += between;
            let first = x;
            x += before;
            for span in spans {
                let end = x + span;
                stages.push(x..end);
                x = end + scale.gap;
            }
            x -= scale.gap;
            parts.push(first..x);
        }
        let wires = start..x + LEAD;
        let top = HEAD + scale.row / 2;
        let rows = top..top + scale.row * (width as i32 - 1);
        let right = wires.end + LABELS[1];
        let size = (
            right.max(legend) + MARGIN,
            rows.end + scale.row / 2 + LEGEND + MARGIN,
        );
        Layout {
            width,
            scale,
            wires,
            stages,
            parts,
            rows,
            size,
        }
    }

    /// The height at which a place lies; place 0 is the lowest.
    pub fn y(&self, place: u32) -> i32 {
        self.rows.end - self.scale.row * place as i32
    }

    /// The stretches of the wires before, between and after the stages.
    pub fn rails(&self) -> impl Iterator<Item = Range<i32>> + '_ {
        let starts = [self.wires.start].into_iter();
        let starts = starts.chain(self.stages.iter().map(|stage| stage.end));
        let ends = self.stages.iter().map(|stage| stage.start);
        starts
            .zip(ends.chain([self.wires.end]))
            .map(|(start, end)| start..end)
    }

    /// From above the highest place to below the lowest.
    pub fn band(&self) -> Range<i32> {
        let half = self.scale.row / 2 + 2;
        self.rows.start - half..self.rows.end + half
    }

    /// Where the labels stand: the bits' at the left, the places' and the bits
    /// that they take at the right. The first two end there.
    pub fn labels(&self) -> [i32; 3] {
        let Range { start, end } = self.wires;
        [start - 14, end + 36, end + 48]
    }

    /// The middle between the networks, if there are two.
    pub fn middle(&self) -> Option<i32> {
        match self.parts.as_slice() {
            [one, other] => Some((one.end + other.start) / 2),
            _ => None,
        }
    }
}
