//! Subwords of one word or of two.
//!
//! A word has 64/size subwords, counted from 0 at the left. In the examples they are
//! letters of eight bits.

use crate::{ffi, Refusal};

/// Takes the even subwords of `first` and the odd ones of `second`, each to its own
/// place. Subwords have `size` bits and are counted from 0 at the left.
///
/// # Errors
///
/// [`Refusal::Subword`].
///
/// ```
/// use tigbayon::{check, Refusal};
///
/// let [first, second] = [*b"abcdefgh", *b"ABCDEFGH"].map(u64::from_be_bytes);
/// let checked = |size| check(size, first, second).map(u64::to_be_bytes);
/// assert_eq!(checked(8), Ok(*b"aBcDeFgH"));
/// assert_eq!(checked(32), Ok(*b"abcdEFGH"));
/// assert_eq!(check(1, 0, u64::MAX), Ok(0x5555_5555_5555_5555));
///
/// assert_eq!(checked(64), Err(Refusal::Subword));
/// ```
pub fn check(size: u32, first: u64, second: u64) -> Result<u64, Refusal> {
    ffi::tb_check(size, first, second).into()
}

/// Does as [`exchange`] after [`check`]: takes the odd subwords of `second` a place to
/// the left, and the even ones of `first` a place to the right.
///
/// # Errors
///
/// [`Refusal::Subword`].
///
/// ```
/// use tigbayon::excheck;
///
/// let [first, second] = [*b"abcdefgh", *b"ABCDEFGH"].map(u64::from_be_bytes);
/// let exchecked = |size| excheck(size, first, second).map(u64::to_be_bytes);
/// assert_eq!(exchecked(8), Ok(*b"BaDcFeHg"));
/// assert_eq!(exchecked(32), Ok(*b"EFGHabcd"));
/// ```
pub fn excheck(size: u32, first: u64, second: u64) -> Result<u64, Refusal> {
    ffi::tb_excheck(size, first, second).into()
}

/// Takes the even subwords of both, in turn, from the left: that of `first`, then
/// that of `second`. Subwords have `size` bits and are counted from 0 at the left.
///
/// # Errors
///
/// [`Refusal::Subword`].
///
/// ```
/// use tigbayon::mix_left;
///
/// let [first, second] = [*b"abcdefgh", *b"ABCDEFGH"].map(u64::from_be_bytes);
/// let mixed = |size| mix_left(size, first, second).map(u64::to_be_bytes);
/// assert_eq!(mixed(8), Ok(*b"aAcCeEgG"));
/// assert_eq!(mixed(32), Ok(*b"abcdABCD"));
/// ```
pub fn mix_left(size: u32, first: u64, second: u64) -> Result<u64, Refusal> {
    ffi::tb_mix_left(size, first, second).into()
}

/// Takes the odd subwords of both, likewise.
///
/// # Errors
///
/// [`Refusal::Subword`].
///
/// ```
/// use tigbayon::mix_right;
///
/// let [first, second] = [*b"abcdefgh", *b"ABCDEFGH"].map(u64::from_be_bytes);
/// let mixed = |size| mix_right(size, first, second).map(u64::to_be_bytes);
/// assert_eq!(mixed(8), Ok(*b"bBdDfFhH"));
/// assert_eq!(mixed(32), Ok(*b"efghEFGH"));
/// ```
pub fn mix_right(size: u32, first: u64, second: u64) -> Result<u64, Refusal> {
    ffi::tb_mix_right(size, first, second).into()
}

/// Lets each even subword of `word` change places with the odd one to the right of it.
/// Subwords have `size` bits and are counted from 0 at the left. Twice gives the word
/// back.
///
/// # Errors
///
/// [`Refusal::Subword`].
///
/// ```
/// use tigbayon::{exchange, Refusal};
///
/// let word = u64::from_be_bytes(*b"abcdefgh");
/// let exchanged = |size| exchange(size, word).map(u64::to_be_bytes);
/// assert_eq!(exchanged(8), Ok(*b"badcfehg"));
/// assert_eq!(exchanged(32), Ok(*b"efghabcd"));
/// assert_eq!(exchange(1, 0b0110), Ok(0b1001));
///
/// assert_eq!(exchanged(0), Err(Refusal::Subword));
/// ```
pub fn exchange(size: u32, word: u64) -> Result<u64, Refusal> {
    ffi::tb_exchange(size, word).into()
}
