//! Controls of a width.

use crate::low_ones;
pub use model::network::Controls;

/// How many stages a network has: the base-two logarithm of its width.
pub fn stages(width: u32) -> usize {
    width.ilog2() as usize
}

/// Every switch at pass.
pub fn pass_all(width: u32) -> Controls {
    let mut controls = Controls::default();
    controls[..stages(width)].fill(low_ones(width / 2) as u32);
    controls
}

/// The same stages in reversed order.
pub fn reversed(width: u32, mut controls: Controls) -> Controls {
    controls[..stages(width)].reverse();
    controls
}

/// Controls of both networks, with these switches of the stages where they meet the
/// other way: the butterfly's last, and the inverse's first, which joins the same places.
pub fn turned_inside(width: u32, set: [Controls; 2], last: u32, first: u32) -> [Controls; 2] {
    let [mut butterfly, mut inverse] = set;
    butterfly[stages(width) - 1] ^= last;
    inverse[0] ^= first;
    [butterfly, inverse]
}

/// All 4,096 controls of width 8.
pub fn all_of_width_8() -> impl Iterator<Item = Controls> {
    let controls = |switches: u32| [switches & 0xF, switches >> 4 & 0xF, switches >> 8, 0, 0, 0];
    (0..1 << 12).map(controls)
}
