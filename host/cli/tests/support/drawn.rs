//! Calls whose networks are drawn, and what a drawing must show.

use super::list;
use conformance::permutations::{identity, rotation};
use conformance::samples::{for_each, for_each_permutation};
use conformance::WIDTHS;

/// A switch as the papers have it, with the state that its control bit gives it.
#[derive(Clone, Copy, Debug, PartialEq, Eq)]
pub struct Switch {
    /// The number of its stage, counted through all networks.
    pub stage: usize,
    /// Its number.
    pub number: u32,
    /// The places that it joins.
    pub places: [u32; 2],
    /// Whether it passes.
    pub passes: bool,
}

/// The switches of the networks whose controls are printed, in the direction of
/// travel, each stage from switch 0 up.
pub fn switches(width: u32, printed: &str) -> Vec<Switch> {
    let mut stages = Vec::new();
    for line in printed.lines() {
        let (name, controls) = line.split_once(' ').unwrap();
        let mut distances: Vec<u32> = (0..width.ilog2()).map(|power| 1 << power).collect();
        if name == "butterfly" {
            distances.reverse();
        }
        let controls = controls.trim().split(',');
        let hex = |text: &str| u32::from_str_radix(text.strip_prefix("0x").unwrap(), 16).unwrap();
        stages.extend(distances.into_iter().zip(controls.map(hex)));
    }
    let of_stage = |(stage, (d, control)): (usize, (u32, u32))| {
        (0..width / 2).map(move |number| {
            let (j, t) = (number / d, number % d);
            Switch {
                stage,
                number,
                places: [2 * j * d + t, 2 * j * d + t + d],
                passes: control >> number & 1 == 1,
            }
        })
    };
    stages.into_iter().enumerate().flat_map(of_stage).collect()
}

/// A call whose networks are drawn.
pub struct Call {
    /// The width.
    pub width: u32,
    /// The bit that each place takes.
    pub permutation: Vec<u8>,
    args: Vec<String>,
}

impl Call {
    fn of(width: u32, command: &str, what: &str, permutation: &[u8]) -> Self {
        let permutation = permutation.to_vec();
        let args = [command, &width.to_string(), what]
            .map(String::from)
            .to_vec();
        Call {
            width,
            permutation,
            args,
        }
    }

    /// Its arguments.
    pub fn args(&self) -> Vec<&str> {
        self.args.iter().map(String::as_str).collect()
    }
}

/// A mask of each shape.
fn masks(width: u32) -> Vec<u64> {
    let mut masks = Vec::new();
    for_each(width, 1, |mask, _| masks.push(mask));
    let shapes = masks.len().isqrt();
    masks.into_iter().step_by(shapes).collect()
}

/// Calls of every width: permutations and masks of all shapes, and permutations
/// by one network.
pub fn calls() -> Vec<Call> {
    let mut calls = Vec::new();
    for width in WIDTHS {
        for_each_permutation(width, 1, |permutation, _| {
            calls.push(Call::of(width, "route", &list(permutation), permutation));
        });
        for mask in masks(width) {
            let back = identity(width);
            calls.push(Call::of(width, "decode", &format!("{mask:x}"), &back));
        }
        for network in ["--butterfly", "--inverse"] {
            let turned = rotation(width, 3);
            let mut call = Call::of(width, "route", &list(&turned), &turned);
            call.args.push(network.to_string());
            calls.push(call);
        }
    }
    calls
}
