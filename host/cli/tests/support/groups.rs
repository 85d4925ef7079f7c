//! Permutations by groups, as request 08 of paper 02 has them.

use super::list;
use conformance::permutations::{identity, undoing, FIXED};
use conformance::samples::for_each_permutation;
use conformance::WIDTHS;
use std::mem::replace;

/// A step.
pub struct Step {
    /// Its mask.
    pub mask: u64,
    /// The bit at each place before it.
    pub contents: Vec<u8>,
}

/// A permutation, and the steps that bring it about.
pub struct Routed {
    /// The width.
    pub width: u32,
    /// The bit that each place takes.
    pub permutation: Vec<u8>,
    /// The steps.
    pub steps: Vec<Step>,
    args: Vec<String>,
}

impl Step {
    /// Whether it marks this place.
    pub fn marks(&self, place: usize) -> bool {
        self.mask >> place & 1 == 1
    }
}

impl Routed {
    fn of(width: u32, permutation: &[u8]) -> Self {
        let ends = undoing(permutation);
        let mut contents = identity(width);
        let step = |i| {
            let is_marked = |bit: &u8| ends[usize::from(*bit)] >> i & 1 == 0;
            let places = (0..).zip(&contents).filter(|(_, bit)| is_marked(bit));
            let mask = places.map(|(place, _): (u32, _)| 1 << place).sum();
            let (marked, others): (Vec<u8>, Vec<u8>) =
                contents.iter().partition(|bit| is_marked(bit));
            let contents = replace(&mut contents, [marked, others].concat());
            Step { mask, contents }
        };
        let steps = (0..width.ilog2()).map(step).collect();
        assert_eq!(contents, permutation);
        let args = ["route", &width.to_string(), &list(permutation), "--groups"];
        Routed {
            width,
            permutation: permutation.to_vec(),
            steps,
            args: args.map(String::from).to_vec(),
        }
    }

    /// The arguments that ask for it, and these.
    pub fn args<'a>(&'a self, options: &[&'a str]) -> Vec<&'a str> {
        let args: Vec<&str> = self.args.iter().map(String::as_str).collect();
        [&args, options].concat()
    }

    /// The masks as they are printed.
    pub fn masks(&self) -> Vec<String> {
        let masks = self.steps.iter().map(|step| step.mask);
        masks.map(|mask| format!("{mask:#X}")).collect()
    }

    /// The places of a bit before each step, and at the end.
    pub fn path(&self, bit: u8) -> Vec<usize> {
        let contents = self.steps.iter().map(|step| &step.contents);
        let contents = contents.chain([&self.permutation]);
        let place = |bits: &Vec<u8>| bits.iter().position(|&at| at == bit).unwrap();
        contents.map(place).collect()
    }

    /// The bit that ends farthest from where it was; the lowest of them.
    pub fn farthest(&self) -> u8 {
        let distance = |&bit: &u8| self.path(bit).last().unwrap().abs_diff(bit.into());
        let downwards = identity(self.width).into_iter().rev();
        downwards.max_by_key(distance).unwrap()
    }
}

/// Permutations of all shapes, of every width.
pub fn routed() -> Vec<Routed> {
    let mut routed = Vec::new();
    for width in WIDTHS {
        routed.extend(FIXED.map(|fixed| Routed::of(width, &fixed(width))));
        for_each_permutation(width, 1, |permutation, _| {
            routed.push(Routed::of(width, permutation));
        });
    }
    routed
}
