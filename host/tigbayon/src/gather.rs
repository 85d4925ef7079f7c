//! Gather, scatter and group.

use crate::{ffi, Refusal};

/// What gather, scatter and group answer.
#[derive(Clone, Copy, Debug, PartialEq, Eq, Hash)]
pub struct Gathered {
    /// The count of marked bits, from 0 to the width.
    pub count: u32,
    /// The result.
    pub word: u64,
}

/// Brings the marked bits of `word` to the right, in order, with zeros above.
///
/// # Errors
///
/// [`Refusal::Width`] and [`Refusal::Above`].
///
/// ```
/// use tigbayon::{gather, Gathered, Refusal};
///
/// assert_eq!(gather(8, 0xAD, 0xB6), Ok(Gathered { count: 5, word: 0x1A }));
/// assert_eq!(gather(8, 0, 0xB6), Ok(Gathered { count: 0, word: 0 }));
/// assert_eq!(gather(8, 0xFF, 0xB6), Ok(Gathered { count: 8, word: 0xB6 }));
///
/// assert_eq!(gather(12, 0xAD, 0xB6), Err(Refusal::Width));
/// assert_eq!(gather(8, 0xAD, 0x100), Err(Refusal::Above));
/// ```
pub fn gather(width: u32, mask: u64, word: u64) -> Result<Gathered, Refusal> {
    ffi::tb_gather(width, mask, word).into()
}

/// Puts the rightmost bits of `word` on the marked bits, in order, with zeros
/// on the unmarked ones.
///
/// # Errors
///
/// [`Refusal::Width`] and [`Refusal::Above`].
///
/// ```
/// use tigbayon::{scatter, Gathered};
///
/// assert_eq!(scatter(8, 0xAD, 0x1A), Ok(Gathered { count: 5, word: 0xA4 }));
/// ```
pub fn scatter(width: u32, mask: u64, word: u64) -> Result<Gathered, Refusal> {
    ffi::tb_scatter(width, mask, word).into()
}

/// Brings the marked bits of `word` to the right and the unmarked ones to the
/// left, each in order.
///
/// # Errors
///
/// [`Refusal::Width`] and [`Refusal::Above`].
///
/// ```
/// use tigbayon::{group, Gathered};
///
/// assert_eq!(group(8, 0xAD, 0xB6), Ok(Gathered { count: 5, word: 0x7A }));
/// assert_eq!(group(64, u64::MAX, 5), Ok(Gathered { count: 64, word: 5 }));
/// ```
pub fn group(width: u32, mask: u64, word: u64) -> Result<Gathered, Refusal> {
    ffi::tb_group(width, mask, word).into()
}
