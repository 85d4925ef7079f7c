//! Planes of pixels.
//!
//! Rows follow each other from the top; the leftmost pixel of a row is bit 63 of its
//! first word.

use crate::{ffi, Refusal};

/// Writes the plane without its lone pixels into `out`.
///
/// The plane has `rows` rows of `row_words` words each, the top row first, and the
/// leftmost pixel of a row is bit 63 of its first word. A one is a lit pixel; pixels
/// outside the plane are dark. A pixel of the new plane is lit exactly if it is lit in
/// `plane` and so is at least one of the eight around it. Words of `out` after the
/// plane stay as they were. If the call is refused, every word does.
///
/// # Errors
///
/// [`Refusal::Range`], if either list is above 2,048 words, [`Refusal::Short`], if
/// `out` cannot hold the plane, and [`Refusal::Plane`], if `rows` or `row_words` is
/// zero or their product, however great, is not the length of `plane`.
///
/// ```
/// use tigbayon::{despeckle, Refusal};
///
/// // Three rows of one word: its highest four bits, at the left, and its lowest four.
/// let plane = [0x4000_0000_0000_0001, 0x2000_0000_0000_0000, 0x0000_0000_0000_0005];
/// let mut out = [7; 4];
/// assert_eq!(despeckle(&plane, 3, 1, &mut out), Ok(()));
/// // Two that touch by their corners stay; the three at the right are lone.
/// assert_eq!(out, [0x4000_0000_0000_0000, 0x2000_0000_0000_0000, 0, 7]);
///
/// // In one row of three words the first word's last pixel touches the second's first.
/// assert_eq!(despeckle(&[1, 1 << 63, 1], 1, 3, &mut out), Ok(()));
/// assert_eq!(out, [1, 1 << 63, 0, 7]);
/// // In three rows of one word it does not.
/// assert_eq!(despeckle(&[1, 1 << 63, 1], 3, 1, &mut out), Ok(()));
/// assert_eq!(out, [0, 0, 0, 7]);
///
/// assert_eq!(despeckle(&[0; 2_049], 1, 2_049, &mut out), Err(Refusal::Range));
/// assert_eq!(despeckle(&plane, 3, 1, &mut out[..2]), Err(Refusal::Short));
/// assert_eq!(despeckle(&plane, 1 << 32, 1 << 32, &mut out), Err(Refusal::Short));
/// assert_eq!(despeckle(&plane, 2, 1, &mut out), Err(Refusal::Plane));
/// assert_eq!(despeckle(&[], 0, 3, &mut out), Err(Refusal::Plane));
/// ```
pub fn despeckle(
    plane: &[u64],
    rows: usize,
    row_words: usize,
    out: &mut [u64],
) -> Result<(), Refusal> {
    Refusal::check(ffi::tb_despeckle(plane, rows, row_words, out))
}
