//! Masks that bring about a permutation by groups (request 08 of paper 02).

use crate::gather::group;
use crate::permutation::conditions;
use crate::refusal::Answer;

/// The masks of steps 0 to L-1, and zeros.
pub type Masks = [u64; 6];

/// "at all four widths"
pub const WIDTHS: [u32; 4] = [8, 16, 32, 64];

/// "Turn an order into L masks: the mask of step i (from 0) marks each line whose
/// present content must end at a place with bit i zero."
///
/// "Refusals 1, 4 and 5 are met as in the finder."
///
/// ```
/// use model::groups::route_groups;
///
/// // Bits 1 and 4 change places.
/// let masks = route_groups(8, &[0, 4, 2, 3, 1, 5, 6, 7]).result;
/// assert_eq!(masks, [0b0100_0111, 0b0110_0011, 0b0101_0101, 0, 0, 0]);
/// // Every bit stays.
/// let masks = route_groups(8, &[0, 1, 2, 3, 4, 5, 6, 7]).result;
/// assert_eq!(masks, [0b0101_0101, 0b0101_0101, 0b0101_0101, 0, 0, 0]);
/// ```
pub fn route_groups(width: u32, permutation: &[u8]) -> Answer<Masks> {
    Answer::of(&conditions(&WIDTHS, width, permutation), || {
        // For each place, the bit that must end there, where it stands at present: a
        // word with that one alone.
        let bits = permutation.iter().map(|&bit| 1 << bit);
        let mut present: Vec<u64> = bits.collect();
        let mut masks = Masks::default();
        for (i, mask) in masks.iter_mut().enumerate().take(width.ilog2() as usize) {
            for (place, bit) in present.iter().enumerate() {
                if place >> i & 1 == 0 {
                    *mask |= bit;
                }
            }
            // "Grouping by these masks in turn"
            for bit in &mut present {
                *bit = group(width, *mask, *bit).result.word;
            }
        }
        masks
    })
}
