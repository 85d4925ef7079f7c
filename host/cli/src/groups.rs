//! A permutation by groups, as it is printed and drawn.

use crate::number::hex_list;
use crate::paths::Paths;
use std::fmt;
use tigbayon::{group, route_groups, Refusal};

/// Groups, step by step.
pub struct Groups {
    /// How many places there are.
    pub width: u32,
    /// The mask of each step.
    pub masks: Vec<u64>,
    /// The bits' paths through the steps.
    pub paths: Paths,
}

impl Groups {
    /// The groups by which every place takes the bit that its entry names.
    pub fn routed(width: u32, permutation: &[u8]) -> Result<Self, Refusal> {
        let mut masks = route_groups(width, permutation)?.to_vec();
        masks.truncate(width.ilog2() as usize);
        let paths = (0..width).map(|bit| path(width, &masks, bit));
        let paths = paths.collect::<Result<_, _>>()?;
        Ok(Groups {
            width,
            masks,
            paths,
        })
    }
}

/// The places of a bit before each step, and at the end: the library groups it alone.
fn path(width: u32, masks: &[u64], bit: u32) -> Result<Vec<u32>, Refusal> {
    let mut places = vec![bit];
    let mut word = 1 << bit;
    for &mask in masks {
        word = group(width, mask, word)?.word;
        places.push(word.trailing_zeros());
    }
    Ok(places)
}

/// The masks as a list.
impl fmt::Display for Groups {
    fn fmt(&self, f: &mut fmt::Formatter<'_>) -> fmt::Result {
        write!(f, "masks {}", hex_list(&self.masks))
    }
}

#[cfg(test)]
mod tests {
    use super::*;
    use conformance::permutations::all_of_width_8;
    use conformance::samples::for_each_permutation;
    use conformance::WIDTHS;
    use std::iter::zip;

    fn assert_sources(width: u32, permutation: &[u8]) {
        let groups = Groups::routed(width, permutation).unwrap();
        let sources = groups.paths.sources().into_iter();
        assert!(sources.eq(permutation.iter().copied().map(u32::from)));
    }

    #[test]
    fn places_take_what_the_permutation_says() {
        all_of_width_8().for_each(|permutation| assert_sources(8, &permutation));
        for width in WIDTHS {
            for_each_permutation(width, 20, |permutation, _| {
                assert_sources(width, permutation);
            });
        }
    }

    /// Below the others, where the marked bits are gathered.
    #[test]
    fn marked_bits_go_down() {
        for width in WIDTHS {
            for_each_permutation(width, 20, |permutation, _| {
                let Groups { masks, paths, .. } = Groups::routed(width, permutation).unwrap();
                for bit in 0..width {
                    let steps = paths.of(bit).windows(2);
                    for (mask, places) in zip(&masks, steps) {
                        let marked = mask >> places[0] & 1 == 1;
                        assert_eq!(places[1] < mask.count_ones(), marked);
                    }
                }
            });
        }
    }
}
