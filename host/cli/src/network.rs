//! A network on its controls, as it is printed and drawn.

use crate::number::hex_list;
use crate::paths::Paths;
use std::fmt;
use tigbayon::Controls;

/// A switch of a stage.
#[derive(Clone, Copy, Debug, PartialEq, Eq)]
pub struct Switch {
    /// Its number, which is that of its control bit.
    pub number: u32,
    /// The lower of the places that it joins.
    pub low: u32,
    /// The upper one.
    pub high: u32,
    /// Whether it passes; it swaps otherwise.
    pub passes: bool,
}

/// A stage of switches.
#[derive(Clone, Copy, Debug, PartialEq, Eq)]
pub struct Stage {
    /// How many places it has.
    pub width: u32,
    /// How far apart the places are that a switch joins.
    pub distance: u32,
    /// Its control bits.
    pub control: u32,
}

/// A network on its controls.
#[derive(Clone, Debug, PartialEq, Eq)]
pub struct Network {
    /// Its name.
    pub name: &'static str,
    /// Its stages in the direction of travel.
    pub stages: Vec<Stage>,
}

impl Switch {
    /// Whether it joins this place to another.
    pub fn joins(self, place: u32) -> bool {
        self.low == place || self.high == place
    }

    /// Where it takes the bit of a place that it joins.
    pub fn carry(self, place: u32) -> u32 {
        if self.passes {
            place
        } else {
            self.low + self.high - place
        }
    }
}

impl Stage {
    /// Its switches from number 0 up: of distance d, switch j×d + t joins
    /// places 2×j×d + t and 2×j×d + t + d.
    pub fn switches(self) -> impl Iterator<Item = Switch> {
        (0..self.width / 2).map(move |number| {
            let low = number + number / self.distance * self.distance;
            let high = low + self.distance;
            let passes = self.control >> number & 1 == 1;
            Switch {
                number,
                low,
                high,
                passes,
            }
        })
    }

    /// The switch that joins this place to another.
    pub fn switch_at(self, place: u32) -> Switch {
        let switch = self.switches().find(|switch| switch.joins(place));
        switch.expect("a switch for every place")
    }
}

impl Network {
    /// The butterfly, distances falling.
    pub fn butterfly(width: u32, controls: Controls) -> Self {
        let distances = (0..width.ilog2()).rev().map(|power| 1 << power);
        Network::of("butterfly", width, distances, controls)
    }

    /// The inverse, distances rising.
    pub fn inverse(width: u32, controls: Controls) -> Self {
        let distances = (0..width.ilog2()).map(|power| 1 << power);
        Network::of("inverse", width, distances, controls)
    }

    fn of(
        name: &'static str,
        width: u32,
        distances: impl Iterator<Item = u32>,
        controls: Controls,
    ) -> Self {
        let stage = |(distance, control)| Stage {
            width,
            distance,
            control,
        };
        let stages = distances.zip(controls.stages).map(stage).collect();
        Network { name, stages }
    }
}

/// The name, and the controls as they can be given again.
impl fmt::Display for Network {
    fn fmt(&self, f: &mut fmt::Formatter<'_>) -> fmt::Result {
        let controls: Vec<u32> = self.stages.iter().map(|stage| stage.control).collect();
        write!(f, "{:<9} {}", self.name, hex_list(&controls))
    }
}

/// The paths of all bits through these networks.
pub fn paths(networks: &[Network], width: u32) -> Paths {
    (0..width).map(|bit| path(networks, bit)).collect()
}

/// The places of a bit before each stage, and at the end.
fn path(networks: &[Network], bit: u32) -> Vec<u32> {
    let mut places = vec![bit];
    let mut place = bit;
    for stage in networks.iter().flat_map(|network| &network.stages) {
        place = stage.switch_at(place).carry(place);
        places.push(place);
    }
    places
}

#[cfg(test)]
mod tests {
    use super::*;
    use conformance::permutations::all_of_width_8;
    use conformance::samples::{for_each, for_each_permutation};
    use conformance::WIDTHS;
    use tigbayon::{butterfly, decode, inverse, route, scatter};

    fn routed(width: u32, permutation: &[u8]) -> [Network; 2] {
        let routed = route(width, permutation).unwrap();
        [
            Network::butterfly(width, routed.butterfly),
            Network::inverse(width, routed.inverse),
        ]
    }

    fn assert_paths_end_as_asked(width: u32, permutation: &[u8]) {
        let paths = paths(&routed(width, permutation), width);
        for (place, &bit) in (0..).zip(permutation) {
            assert_eq!(paths.end(bit.into()), place);
        }
    }

    #[test]
    fn paths_end_where_the_permutation_says() {
        all_of_width_8().for_each(|permutation| assert_paths_end_as_asked(8, &permutation));
        for width in WIDTHS {
            for_each_permutation(width, 20, |permutation, _| {
                assert_paths_end_as_asked(width, permutation);
            });
        }
    }

    #[test]
    fn paths_are_those_of_the_library() {
        for width in WIDTHS {
            for_each(width, 20, |mask, word| {
                let decoded = decode(width, mask).unwrap();
                let there = [Network::butterfly(width, decoded.butterfly)];
                let back = [Network::inverse(width, decoded.inverse)];
                let bit = word as u32 % width;
                let [gone, come] = [there, back].map(|network| paths(&network, width).end(bit));
                assert_eq!(
                    butterfly(width, &decoded.butterfly, 1 << bit),
                    Ok(1 << gone)
                );
                assert_eq!(inverse(width, &decoded.inverse, 1 << bit), Ok(1 << come));
                if bit < mask.count_ones() {
                    assert_eq!(scatter(width, mask, 1 << bit).unwrap().word, 1 << gone);
                }
            });
        }
    }

    #[test]
    fn every_place_has_one_switch_a_stage() {
        for width in WIDTHS {
            let networks = [Network::butterfly(width, Controls::default())];
            for stage in &networks[0].stages {
                let mut places: Vec<u32> = stage
                    .switches()
                    .flat_map(|switch| [switch.low, switch.high])
                    .collect();
                places.sort_unstable();
                assert!(places.into_iter().eq(0..width));
            }
        }
    }

    #[test]
    fn the_farthest_bit() {
        let swapped = paths(&routed(8, &[0, 4, 2, 3, 1, 5, 6, 7]), 8);
        assert_eq!(swapped.farthest(8), 1);
        assert_eq!(swapped.of(1)[0], 1);
        assert_eq!(swapped.end(1), 4);
        let still = paths(&routed(8, &[0, 1, 2, 3, 4, 5, 6, 7]), 8);
        assert_eq!(still.farthest(8), 0);
        assert_eq!(still.farthest(0), 0);
    }
}
