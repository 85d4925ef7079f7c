//! Networks prepared once for many words. Paper 01 does not have them: the
//! sentences are those of include/tigbayon.h.

use crate::bits::{bits_of, word_of};
use crate::network::{butterfly_distances, has_unused_one, inverse_distances, Controls};
use crate::refusal::{is_width, Answer, UNUSED, WIDTH};
use std::iter::zip;

/// A word for each of [`DISTANCES`], "with ones at the lower bits of the pairs
/// that swap".
pub type Swaps = [u64; 6];

/// "For either network `swaps[i]` is the stage of distance d = 32 >> i, the
/// widest first"
pub const DISTANCES: [usize; 6] = [32, 16, 8, 4, 2, 1];

/// The bits of every word here, whatever the width.
const BITS: usize = 64;

/// "Prepare the butterfly, for tb_butterfly_prepared."
///
/// ```
/// // All pass but the switch of bits 4 and 6.
/// let swaps = model::prepared::prepare_butterfly(8, &[0xF, 0xB, 0xF, 0, 0, 0]).result;
/// assert_eq!(swaps.map(|swaps| swaps & 0xFF), [0, 0, 0, 0, 0x10, 0]);
/// ```
pub fn prepare_butterfly(width: u32, controls: &Controls) -> Answer<Swaps> {
    prepare(width, controls, butterfly_distances)
}

/// "Prepare the inverse, for tb_inverse_prepared."
///
/// ```
/// // In the first stage, which is swaps[5], bits 0 and 1 pass.
/// let swaps = model::prepared::prepare_inverse(8, &[0b0001, 0xF, 0xF, 0, 0, 0]).result;
/// assert_eq!(swaps.map(|swaps| swaps & 0xFF), [0, 0, 0, 0, 0, 0b0101_0100]);
/// ```
pub fn prepare_inverse(width: u32, controls: &Controls) -> Answer<Swaps> {
    prepare(width, controls, inverse_distances)
}

/// "the word sent through the stages of `swaps[0]` to `swaps[5]`"
///
/// ```
/// // Bits 0 and 32, then 0 and 1.
/// assert_eq!(model::prepared::butterfly_prepared(&[1, 0, 0, 0, 0, 1], 1), 1 << 32);
/// ```
pub fn butterfly_prepared(swaps: &Swaps, word: u64) -> u64 {
    through(zip(DISTANCES, *swaps), word)
}

/// "the same through the stages of `swaps[5]` to `swaps[0]`"
///
/// ```
/// // Bits 0 and 1, then 0 and 32.
/// assert_eq!(model::prepared::inverse_prepared(&[1, 0, 0, 0, 0, 1], 1), 2);
/// ```
pub fn inverse_prepared(swaps: &Swaps, word: u64) -> u64 {
    through(zip(DISTANCES, *swaps).rev(), word)
}

/// Refuses the call, or finds for each distance the stage that has it in the
/// direction of travel: "At distances w and above it is zero."
fn prepare(
    width: u32,
    controls: &Controls,
    distances: impl Fn(usize) -> Vec<usize>,
) -> Answer<Swaps> {
    let conditions = [
        (WIDTH, !is_width(width)),
        (UNUSED, has_unused_one(width, controls)),
    ];
    Answer::of(&conditions, || {
        let travelled = distances(width as usize);
        DISTANCES.map(|d| {
            let stage = travelled.iter().position(|&travelled| travelled == d);
            stage.map_or(0, |stage| swapping(d, controls[stage]))
        })
    })
}

/// Bit 2×j×d + t, for t below d, is the lower one of switch j×d + t, and is
/// marked if that swaps. "every pair at bit w and above is marked too, its
/// control bit being unused and zero"
fn swapping(d: usize, stage: u32) -> u64 {
    let controls = bits_of(32, stage.into());
    let is_marked = |p: usize| {
        let (j, t) = (p / (2 * d), p % (2 * d));
        let is_lower = t < d;
        is_lower && !controls[j * d + t]
    };
    word_of(&(0..BITS).map(is_marked).collect::<Vec<_>>())
}

/// Sends the word through stages of these distances and marks.
fn through(stages: impl Iterator<Item = (usize, u64)>, word: u64) -> u64 {
    let mut bits = bits_of(BITS, word);
    for (d, swaps) in stages {
        bits = exchanged(d, &bits_of(BITS, swaps), &bits);
    }
    word_of(&bits)
}

/// "on any six words, at each distance d the word x becomes x ^ t ^ (t << d),
/// where t is (x ^ (x >> d)) & `swaps[i]`": a marked bit that differs from the bit
/// d above it is turned over, and so is that one. Above bit 63 stand zeros.
///
/// Where lower bits alone are marked, each such pair is exchanged.
fn exchanged(d: usize, marked: &[bool], word: &[bool]) -> Vec<bool> {
    let mut after = word.to_vec();
    for p in 0..BITS {
        let above = word.get(p + d).is_some_and(|&bit| bit);
        if marked[p] && word[p] != above {
            after[p] = !after[p];
            if let Some(above) = after.get_mut(p + d) {
                *above = !*above;
            }
        }
    }
    after
}
