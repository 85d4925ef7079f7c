//! Stages and both networks ("Columns" of paper 01).

use crate::bits::{bits_of, word_of};
use crate::refusal::{has_one_at_or_above, is_width, Answer, ABOVE, UNUSED, WIDTH};

/// "Settings are six columns of 32 bits in the direction of travel."
pub type Controls = [u32; 6];

/// Demands: "The butterfly has wide columns first"
///
/// ```
/// // Row 6 of paper 01.
/// assert_eq!(model::network::butterfly(8, &[0; 6], 0x01).result, 0x80);
/// ```
pub fn butterfly(width: u32, controls: &Controls, word: u64) -> Answer<u64> {
    answer(width, controls, word, butterfly_distances)
}

/// Demands: "the inverse butterfly narrow ones"
///
/// ```
/// // In the first stage bits 0 and 1 pass, bits 2 and 3 swap.
/// let controls = [0b0001, 0xF, 0xF, 0, 0, 0];
/// assert_eq!(model::network::inverse(8, &controls, 0b1001).result, 0b0101);
/// ```
pub fn inverse(width: u32, controls: &Controls, word: u64) -> Answer<u64> {
    answer(width, controls, word, inverse_distances)
}

/// "Column i (from 1) joins lines w/2^i apart: distances 32, 16, 8, 4, 2, 1 at
/// width 64."
pub(crate) fn butterfly_distances(width: usize) -> Vec<usize> {
    let stages = width.ilog2();
    (1..=stages).map(|i| width / 2_usize.pow(i)).collect()
}

/// "The inverse has distances 1, 2, 4, .. up to w/2."
pub(crate) fn inverse_distances(width: usize) -> Vec<usize> {
    let stages = width.ilog2();
    (0..stages).map(|i| 2_usize.pow(i)).collect()
}

/// "Unused columns and bits are zero."
pub(crate) fn controls_of(stages: &[Vec<bool>]) -> Controls {
    let mut controls = Controls::default();
    for (stage, bits) in controls.iter_mut().zip(stages) {
        *stage = word_of(bits) as u32;
    }
    controls
}

/// "At distance d, switch j×d + t (t below d) joins lines 2×j×d + t and
/// 2×j×d + t + d. It is bit j×d + t of the column's setting, so a column uses
/// w/2 bits. One means pass, zero means swap"
fn through_stage(d: usize, controls: &[bool], word: &mut [bool]) {
    for j in 0..word.len() / (2 * d) {
        for t in 0..d {
            let pass = controls[j * d + t];
            if !pass {
                word.swap(2 * j * d + t, 2 * j * d + t + d);
            }
        }
    }
}

/// Refuses the call, or sends the word through stages of these distances.
fn answer(
    width: u32,
    controls: &Controls,
    word: u64,
    distances: impl Fn(usize) -> Vec<usize>,
) -> Answer<u64> {
    let conditions = [
        (WIDTH, !is_width(width)),
        (ABOVE, has_one_at_or_above(width, word)),
        (UNUSED, has_unused_one(width, controls)),
    ];
    Answer::of(&conditions, || {
        let width = width as usize;
        let mut bits = bits_of(width, word);
        for (d, &stage) in distances(width).into_iter().zip(controls) {
            through_stage(d, &bits_of(width / 2, stage.into()), &mut bits);
        }
        word_of(&bits)
    })
}

/// "Unused columns and bits are zero": a one outside the L stages of w/2 bits.
pub(crate) fn has_unused_one(width: u32, controls: &Controls) -> bool {
    let stages = width.checked_ilog2().unwrap_or(0);
    (0..).zip(controls).any(|(i, &stage)| {
        let used_bits = if i < stages { width / 2 } else { 0 };
        has_one_at_or_above(used_bits, stage.into())
    })
}
