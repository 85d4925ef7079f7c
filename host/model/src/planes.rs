//! Bit planes (request 03 of paper 02).

use crate::bits::{bits_of, word_of};
use std::array;

/// "Take eight words, sixty-four bytes"
pub type Words = [u64; 8];

/// A byte as its bits.
type Byte = [bool; 8];

/// "Bit p of byte n becomes line n of plane p"
///
/// ```
/// use model::planes::to_planes;
///
/// // Byte 0 is 0x81, byte 10 is 0x03.
/// let planes = to_planes(&[0x81, 0x03_0000, 0, 0, 0, 0, 0, 0]);
/// assert_eq!(planes, [1 << 10 | 1, 1 << 10, 0, 0, 0, 0, 0, 1]);
/// ```
pub fn to_planes(words: &Words) -> Words {
    let bytes = bytes_of(words);
    array::from_fn(|p| {
        let plane = bytes.map(|byte| byte[p]);
        word_of(&plane)
    })
}

/// "and the way back is wanted too"
///
/// ```
/// use model::planes::from_planes;
///
/// let words = from_planes(&[1 << 10 | 1, 1 << 10, 0, 0, 0, 0, 0, 1]);
/// assert_eq!(words, [0x81, 0x03_0000, 0, 0, 0, 0, 0, 0]);
/// ```
pub fn from_planes(planes: &Words) -> Words {
    let planes = planes.map(|plane| bits_of(64, plane));
    words_of(array::from_fn(|n| array::from_fn(|p| planes[p][n])))
}

/// "sixty-four bytes, byte 0 in the low end of word 0"
fn bytes_of(words: &Words) -> [Byte; 64] {
    let words = words.map(|word| bits_of(64, word));
    array::from_fn(|n| array::from_fn(|p| words[n / 8][n % 8 * 8 + p]))
}

/// The words that hold these bytes.
fn words_of(bytes: [Byte; 64]) -> Words {
    array::from_fn(|k| word_of(bytes[8 * k..][..8].as_flattened()))
}
