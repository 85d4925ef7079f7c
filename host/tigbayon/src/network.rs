//! Both networks, and the decoder of their controls.

use crate::{ffi, Refusal};

/// The control bits of one network: one means pass, zero means swap.
///
/// At width w = 2^L a network has L stages of w/2 two-bit switches. In a stage
/// of distance d, switch j×d + t (t below d) joins bits 2×j×d + t and
/// 2×j×d + t + d, and bit j×d + t of the stage controls it. Stages L to 5 and
/// bits w/2 to 31 are unused, and zero. By default every switch swaps.
#[derive(Clone, Copy, Debug, Default, PartialEq, Eq, Hash)]
pub struct Controls {
    /// The stages in the direction of travel.
    pub stages: [u32; 6],
}

impl From<[u32; 6]> for Controls {
    fn from(stages: [u32; 6]) -> Self {
        Controls { stages }
    }
}

/// What the decoder makes of a mask.
#[derive(Clone, Copy, Debug, Default, PartialEq, Eq, Hash)]
pub struct Decoded {
    /// Controls for [`butterfly`]: it scatters, once unmarked bits of the
    /// result are cleared.
    pub butterfly: Controls,
    /// Controls for [`inverse`]: it gathers, once unmarked bits of the word
    /// are cleared.
    pub inverse: Controls,
}

/// Sends `word` through the butterfly, stages of distances w/2, .., 2, 1.
///
/// # Errors
///
/// [`Refusal::Width`], [`Refusal::Above`] and [`Refusal::Unused`].
///
/// ```
/// use tigbayon::{butterfly, Controls, Refusal};
///
/// let swap_all = Controls::default();
/// assert_eq!(butterfly(8, &swap_all, 0x01), Ok(0x80));
///
/// let pass_all = Controls::from([0xF, 0xF, 0xF, 0, 0, 0]);
/// assert_eq!(butterfly(8, &pass_all, 0x01), Ok(0x01));
///
/// let unused = Controls::from([0x10, 0, 0, 0, 0, 0]);
/// assert_eq!(butterfly(8, &unused, 0x01), Err(Refusal::Unused));
/// ```
pub fn butterfly(width: u32, controls: &Controls, word: u64) -> Result<u64, Refusal> {
    ffi::tb_butterfly(width, &controls.stages, word).into()
}

/// Sends `word` through the inverse butterfly, stages of distances 1, 2, ..,
/// w/2. On reversed stages each network undoes the other.
///
/// # Errors
///
/// [`Refusal::Width`], [`Refusal::Above`] and [`Refusal::Unused`].
///
/// ```
/// use tigbayon::{butterfly, inverse, Controls};
///
/// let there = Controls::from([0x7, 0x1, 0x5, 0, 0, 0]);
/// let back = Controls::from([0x5, 0x1, 0x7, 0, 0, 0]);
/// let carried = butterfly(8, &there, 0xB6)?;
/// assert_eq!(inverse(8, &back, carried), Ok(0xB6));
/// # Ok::<(), tigbayon::Refusal>(())
/// ```
pub fn inverse(width: u32, controls: &Controls, word: u64) -> Result<u64, Refusal> {
    ffi::tb_inverse(width, &controls.stages, word).into()
}

/// Decodes `mask` into controls by which the networks scatter and gather.
///
/// # Errors
///
/// [`Refusal::Width`] and [`Refusal::Above`].
///
/// ```
/// use tigbayon::{butterfly, decode, gather, inverse, scatter, Decoded};
///
/// let mask = 0xAD;
/// let decoded = decode(8, mask)?;
/// assert_eq!(decoded.butterfly.stages, [0x7, 0x1, 0x5, 0, 0, 0]);
/// assert_eq!(decoded.inverse.stages, [0x5, 0x1, 0x7, 0, 0, 0]);
/// assert_eq!(decode(8, 0), Ok(Decoded::default()));
///
/// let carried = butterfly(8, &decoded.butterfly, 0x1A)?;
/// assert_eq!(carried & mask, scatter(8, mask, 0x1A)?.word);
/// let carried = inverse(8, &decoded.inverse, 0xB6 & mask)?;
/// assert_eq!(carried, gather(8, mask, 0xB6)?.word);
/// # Ok::<(), tigbayon::Refusal>(())
/// ```
pub fn decode(width: u32, mask: u64) -> Result<Decoded, Refusal> {
    ffi::tb_decode(width, mask).into()
}
