//! Packed words: gathered fields, laid end to end.

use crate::{ffi, Refusal};
use std::ops::Range;

/// What pack and unpack answer.
#[derive(Clone, Copy, Debug, PartialEq, Eq, Hash)]
pub struct Packed {
    /// k, the count of marked bits, from 0 to 64.
    pub count: u32,
    /// How many bits were packed or unpacked: k for each word of the range.
    pub bits: u64,
}

/// Gathers the words of `range` by `mask` and packs their fields into `out`.
///
/// The first field begins at bit 0 of the first word, each next one at the bit
/// after the last. Spare bits of the last word written become zero; words after
/// it stay as they were. If the call is refused, every word does.
///
/// # Errors
///
/// [`Refusal::Range`], if `range` does not lie within `words` or either list is
/// above 2,048 words, and [`Refusal::Short`], if `out` cannot hold the bits.
///
/// ```
/// use tigbayon::{pack, Packed, Refusal};
///
/// let words = [1, 2, 3, 4, 5, 0x9A6];
/// let mut out = [7; 3];
/// assert_eq!(pack(0xFFF, &words, 0..6, &mut out), Ok(Packed { count: 12, bits: 72 }));
/// assert_eq!(out, [0x6005_0040_0300_2001, 0x9A, 7]);
///
/// assert_eq!(pack(0, &words, 0..6, &mut out), Ok(Packed { count: 0, bits: 0 }));
/// assert_eq!(pack(u64::MAX, &words, 3..3, &mut out), Ok(Packed { count: 64, bits: 0 }));
///
/// assert_eq!(pack(0xFFF, &words, 3..2, &mut out), Err(Refusal::Range));
/// assert_eq!(pack(0xFFF, &words, 0..7, &mut out), Err(Refusal::Range));
/// assert_eq!(pack(0xFFF, &words, 0..6, &mut out[..1]), Err(Refusal::Short));
/// ```
pub fn pack(
    mask: u64,
    words: &[u64],
    range: Range<usize>,
    out: &mut [u64],
) -> Result<Packed, Refusal> {
    ffi::tb_pack(mask, words, range.start, range.end, out).into()
}

/// Reads fields so packed and writes each, scattered by `mask`, into the words
/// of `range` of `out`. Answers as [`pack`] does.
///
/// Spare bits of the last word read must be zero; words after it are not looked
/// at. So [`pack`] of the range of `out`, by the same mask, gives the words read.
/// The other words of `out` stay as they were. If the call is refused, every word
/// does.
///
/// # Errors
///
/// [`Refusal::Range`], if `range` does not lie within `out` or either list is
/// above 2,048 words, [`Refusal::Short`], if `packed` does not hold the bits, and
/// [`Refusal::Spare`], if a spare bit of the last word read is one.
///
/// ```
/// use tigbayon::{unpack, Packed, Refusal};
///
/// let packed = [0x6005_0040_0300_2001, 0x9A];
/// let mut out = [7; 8];
/// assert_eq!(unpack(0xFFF, &packed, 1..7, &mut out), Ok(Packed { count: 12, bits: 72 }));
/// assert_eq!(out, [7, 1, 2, 3, 4, 5, 0x9A6, 7]);
///
/// assert_eq!(unpack(0xFFF, &packed, 1..9, &mut out), Err(Refusal::Range));
/// assert_eq!(unpack(0xFFF, &packed[1..], 1..7, &mut out), Err(Refusal::Short));
///
/// // 72 bits leave bits 8 to 63 of the second word spare; the third is not read.
/// let dirty = [0x6005_0040_0300_2001, 0x19A];
/// assert_eq!(unpack(0xFFF, &dirty, 1..7, &mut out), Err(Refusal::Spare));
/// let beyond = [0x6005_0040_0300_2001, 0x9A, 0x19A];
/// assert_eq!(unpack(0xFFF, &beyond, 1..7, &mut out), Ok(Packed { count: 12, bits: 72 }));
/// ```
pub fn unpack(
    mask: u64,
    packed: &[u64],
    range: Range<usize>,
    out: &mut [u64],
) -> Result<Packed, Refusal> {
    ffi::tb_unpack(mask, packed, range.start, range.end, out).into()
}
