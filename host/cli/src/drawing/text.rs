//! Drawings in characters.
//!
//! A place is a line of text. In each stage a passing switch is a circle at
//! either of its places; a swapping one is two discs, joined by a line across
//! the places between. The followed bit's path is heavy.

use super::grid::{mark, page, Grid, MARKED};
use super::Drawing;
use crate::network::{Stage, Switch};
use crate::number::hex;
use std::ops::Range;

const PASS: char = '○';
const SWAP: char = '●';

/// Draws in characters.
pub fn draw(drawing: &Drawing) -> String {
    let mut pen = Pen::new(drawing);
    for (number, network) in drawing.networks.iter().enumerate() {
        if number > 0 {
            pen.between(drawing);
        }
        let start = pen.grid.end();
        network.stages.iter().for_each(|&stage| pen.stage(stage));
        pen.networks.push(start..pen.grid.end());
    }
    pen.wires(1);
    let sources = drawing.paths().sources();
    let parts = [
        heading(drawing, &pen),
        pen.grid.rows(&sources, pen.at),
        footing(drawing, &pen),
    ];
    page(&drawing.caption, parts, legend(drawing))
}

/// Draws from left to right.
struct Pen {
    grid: Grid,
    /// The place of the followed bit.
    at: u32,
    /// The columns of each stage, of each network, and of the mask.
    stages: Vec<Range<usize>>,
    networks: Vec<Range<usize>>,
    mask: Vec<Range<usize>>,
}

impl Pen {
    fn new(drawing: &Drawing) -> Self {
        let mut pen = Pen {
            grid: Grid::new(drawing.width),
            at: drawing.bit,
            stages: Vec::new(),
            networks: Vec::new(),
            mask: Vec::new(),
        };
        pen.wires(1);
        pen
    }

    /// Columns where each bit keeps its place.
    fn wires(&mut self, count: usize) {
        for _ in 0..count {
            let at = self.at;
            self.grid.column(|place| wire(place == at));
        }
    }

    /// What stands between two networks: the mask, if there is one.
    fn between(&mut self, drawing: &Drawing) {
        let start = self.grid.end();
        self.wires(2);
        if let Some(mask) = drawing.mask {
            self.grid.column(|place| mark(mask, place));
            self.wires(2);
            self.mask.push(start..self.grid.end());
        }
    }

    /// A stage: a column of the switches that pass, then lanes of those that
    /// swap. It is as wide as its control word needs.
    fn stage(&mut self, stage: Stage) {
        let start = self.grid.end();
        let lanes = lanes(stage);
        let pitch = if stage.width > 16 { 1 } else { 2 };
        let drawn = 1 + pitch * lanes.len();
        let spare = (hex(stage.control.into()).len() + 2).saturating_sub(drawn + 2);
        self.wires(1 + spare / 2);
        let at = self.at;
        self.grid
            .column(|place| match stage.switch_at(place).passes {
                true => PASS,
                false => wire(place == at),
            });
        for lane in lanes {
            self.wires(pitch - 1);
            self.lane(&lane);
        }
        self.wires(1 + spare.div_ceil(2));
        self.stages.push(start..self.grid.end());
    }

    /// A column of switches that swap, none across another.
    fn lane(&mut self, lane: &[Switch]) {
        let at = self.at;
        self.grid.column(|place| {
            let across = |switch: &&Switch| (switch.low..=switch.high).contains(&place);
            match lane.iter().find(across) {
                Some(switch) if switch.joins(place) => SWAP,
                Some(switch) => crossing(place == at, switch.joins(at)),
                None => wire(place == at),
            }
        });
        if let Some(switch) = lane.iter().find(|switch| switch.joins(at)) {
            self.at = switch.carry(at);
        }
    }
}

/// The switches of a stage that swap, in as few lanes as keep a place between
/// any two.
fn lanes(stage: Stage) -> Vec<Vec<Switch>> {
    let mut lanes: Vec<Vec<Switch>> = Vec::new();
    for switch in stage.switches().filter(|switch| !switch.passes) {
        let free = |lane: &&mut Vec<Switch>| lane.iter().all(|other| other.high + 1 < switch.low);
        match lanes.iter_mut().find(free) {
            Some(lane) => lane.push(switch),
            None => lanes.push(vec![switch]),
        }
    }
    lanes
}

fn wire(followed: bool) -> char {
    if followed {
        '━'
    } else {
        '─'
    }
}

/// A place's line and a switch's, where they cross.
fn crossing(followed: bool, switch_followed: bool) -> char {
    match (followed, switch_followed) {
        (false, false) => '┼',
        (false, true) => '╂',
        (true, _) => '┿',
    }
}

/// The names of the networks, and what the labels name.
fn heading(drawing: &Drawing, pen: &Pen) -> String {
    let names = drawing.networks.iter().map(|network| network.name);
    let networks = pen.networks.iter().cloned().zip(names.map(String::from));
    let mask = pen
        .mask
        .iter()
        .cloned()
        .map(|columns| (columns, "mask".into()));
    pen.grid.heading(networks.chain(mask))
}

/// The distance and the controls of each stage.
fn footing(drawing: &Drawing, pen: &Pen) -> String {
    let distance = |stage: Stage| stage.distance.to_string();
    let control = |stage: Stage| hex(stage.control.into());
    let lines: [(&str, &dyn Fn(Stage) -> String); 2] =
        [("distance", &distance), ("controls", &control)];
    let lines = lines.map(|(name, text)| {
        let texts = drawing.stages().map(text);
        pen.grid
            .footing(name, pen.stages.iter().cloned().zip(texts))
    });
    lines.join("\n")
}

fn legend(drawing: &Drawing) -> String {
    let marked = format!("  {MARKED} marked");
    let marked = if drawing.mask.is_some() { &marked } else { "" };
    let journey = drawing.journey();
    format!("{PASS} passes  {SWAP} swaps with the {SWAP} it is joined to{marked}  ━ {journey}")
}
