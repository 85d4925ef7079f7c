//! Drawings of networks on their controls, of groups, of planes of pixels, and of frames.

pub mod bars;
mod canvas;
mod curves;
mod grid;
pub mod groups;
mod layout;
mod legend;
mod palette;
pub mod pixels;
pub mod svg;
pub mod text;
mod wires;
mod words;

use crate::network::{paths, Network, Stage};
use crate::paths::Paths;

/// What stands over a drawing.
pub struct Caption {
    /// Its title.
    pub title: String,
    /// What is drawn.
    pub detail: String,
}

/// What is drawn: networks, one after the other, and a bit's path through them.
pub struct Drawing {
    /// What stands over it.
    pub caption: Caption,
    /// How many places there are.
    pub width: u32,
    /// The networks in the direction of travel.
    pub networks: Vec<Network>,
    /// The places marked between the networks, if any mask marks them.
    pub mask: Option<u64>,
    /// The bit to follow.
    pub bit: u32,
}

/// Whether the mask marks the place.
fn is_marked(mask: u64, place: u32) -> bool {
    mask >> place & 1 == 1
}

impl Drawing {
    /// All stages, in the direction of travel.
    pub fn stages(&self) -> impl Iterator<Item = Stage> + '_ {
        self.networks
            .iter()
            .flat_map(|network| network.stages.iter().copied())
    }

    /// The bits' paths through all stages.
    pub fn paths(&self) -> Paths {
        paths(&self.networks, self.width)
    }

    /// Where the followed bit goes, in words.
    pub fn journey(&self) -> String {
        let paths = self.paths();
        let path = paths.of(self.bit);
        match self.mask {
            Some(_) => format!(
                "bit {}, to place {} and back",
                self.bit,
                path[path.len() / 2]
            ),
            None => paths.journey(self.bit),
        }
    }
}
