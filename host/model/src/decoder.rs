//! The decoder from a mask to controls ("Decoder" of paper 01).

use crate::bits::{bits_of, marked};
use crate::network::{butterfly_distances, controls_of, Controls};
use crate::refusal::{has_one_at_or_above, is_width, Answer, ABOVE, WIDTH};

/// "One decoder call answers both sets."
#[derive(Clone, Copy, Debug, Default, PartialEq, Eq)]
pub struct Decoded {
    /// The butterfly's controls.
    pub butterfly: Controls,
    /// The inverse's controls.
    pub inverse: Controls,
}

/// "That gives the butterfly. The inverse gets the same columns in reversed
/// order, each column's bits as they are."
///
/// ```
/// use model::decoder::{decode, Decoded};
///
/// // Rows 4 and 5 of paper 01.
/// let decoded = decode(8, 0xAD).result;
/// assert_eq!(decoded.butterfly, [0x7, 0x1, 0x5, 0, 0, 0]);
/// assert_eq!(decoded.inverse, [0x5, 0x1, 0x7, 0, 0, 0]);
/// assert_eq!(decode(8, 0).result, Decoded::default());
/// ```
pub fn decode(width: u32, mask: u64) -> Answer<Decoded> {
    let conditions = [
        (WIDTH, !is_width(width)),
        (ABOVE, has_one_at_or_above(width, mask)),
    ];
    Answer::of(&conditions, || {
        let mask = bits_of(width as usize, mask);
        let distances = butterfly_distances(mask.len()).into_iter();
        let mut stages: Vec<_> = distances.map(|d| stage(d, &mask)).collect();
        let butterfly = controls_of(&stages);
        stages.reverse();
        let inverse = controls_of(&stages);
        Decoded { butterfly, inverse }
    })
}

/// "Take a column of distance d and its local right half of number j, lines
/// 2×j×d to 2×j×d + d - 1. Let c be the count of ones of the mask in lines 0
/// to 2×j×d + d - 1. The d setting bits are d zeros turned left c steps"
fn stage(d: usize, mask: &[bool]) -> Vec<bool> {
    let halves = 0..mask.len() / (2 * d);
    let control_bits = halves.flat_map(|j| {
        let c = marked(&mask[0..=2 * j * d + d - 1]).len();
        turned_left(c, vec![false; d])
    });
    control_bits.collect()
}

/// "each step moves the top bit to the bottom and complements it"
///
/// ```
/// use model::bits::{bits_of, word_of};
/// use model::decoder::turned_left;
///
/// // 001, Fig. 29: LROTC("0000", 3) = "0111".
/// assert_eq!(word_of(&turned_left(3, bits_of(4, 0b0000))), 0b0111);
/// // 001, Section 3.1: 01 → 11 → 10 → 00.
/// for (steps, bits) in [0b01, 0b11, 0b10, 0b00].into_iter().enumerate() {
///     assert_eq!(word_of(&turned_left(steps, bits_of(2, 0b01))), bits);
/// }
/// ```
pub fn turned_left(steps: usize, mut bits: Vec<bool>) -> Vec<bool> {
    for _ in 0..steps {
        // From the last entry, the top bit, to entry 0.
        bits.rotate_right(1);
        bits[0] = !bits[0];
    }
    bits
}
