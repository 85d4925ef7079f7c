//! The controls, or the masks, that bring about a permutation.

use crate::{ffi, Controls, Refusal};

/// Controls for [`butterfly`](crate::butterfly()) and then
/// [`inverse`](crate::inverse()).
#[derive(Clone, Copy, Debug, Default, PartialEq, Eq, Hash)]
pub struct Routed {
    /// Controls for the butterfly, through which a word goes first.
    pub butterfly: Controls,
    /// Controls for the inverse, through which it goes on.
    pub inverse: Controls,
}

/// Finds the first controls by which butterfly then inverse permute every
/// word.
///
/// Any others that do so come later: go through the stages of the butterfly,
/// then through those of the inverse, each from switch 0 up; at the first
/// switch where they differ from these, these pass and those swap.
///
/// Different controls of both networks may move every word alike. To see whether
/// two sets do, compare what this answers for the permutations that they realise.
///
/// # Errors
///
/// [`Refusal::Width`], [`Refusal::Length`] and [`Refusal::Entry`].
///
/// ```
/// use tigbayon::{butterfly, inverse, route, Refusal};
///
/// let routed = route(8, &[7, 6, 5, 4, 3, 2, 1, 0])?;
/// assert_eq!(routed.butterfly.stages, [0xF, 0xF, 0xF, 0, 0, 0]);
/// assert_eq!(routed.inverse.stages, [0; 6]);
///
/// let routed = route(8, &[0, 4, 2, 3, 1, 5, 6, 7])?;
/// assert_eq!(routed.butterfly.stages, [0xD, 0xF, 0xF, 0, 0, 0]);
/// assert_eq!(routed.inverse.stages, [0xB, 0xF, 0xD, 0, 0, 0]);
///
/// // Place 1 takes bit 4.
/// let half_way = butterfly(8, &routed.butterfly, 0b1_0000)?;
/// assert_eq!(inverse(8, &routed.inverse, half_way), Ok(0b10));
///
/// assert_eq!(route(8, &[0, 1, 2]), Err(Refusal::Length));
/// assert_eq!(route(8, &[0, 0, 2, 3, 4, 5, 6, 7]), Err(Refusal::Entry));
/// # Ok::<(), tigbayon::Refusal>(())
/// ```
pub fn route(width: u32, permutation: &[u8]) -> Result<Routed, Refusal> {
    ffi::tb_route(width, permutation).into()
}

/// Finds the controls by which the butterfly alone permutes every word. There
/// is at most one such set: accepted controls that move every word alike are
/// equal. So routing the permutation that controls realise gives them back.
///
/// # Errors
///
/// [`Refusal::Width`], [`Refusal::Length`], [`Refusal::Entry`], and
/// [`Refusal::NotRealised`] if there are no such controls.
///
/// ```
/// use tigbayon::{butterfly, route_butterfly, Refusal};
///
/// let turn_by_one = [7, 0, 1, 2, 3, 4, 5, 6];
/// let controls = route_butterfly(8, &turn_by_one)?;
/// assert_eq!(butterfly(8, &controls, 0b1001_0110), Ok(0b0010_1101));
///
/// let refused = route_butterfly(8, &[0, 4, 2, 3, 1, 5, 6, 7]);
/// assert_eq!(refused, Err(Refusal::NotRealised));
/// # Ok::<(), tigbayon::Refusal>(())
/// ```
///
/// From controls to the permutation, by single bits, and back:
///
/// ```
/// use tigbayon::{butterfly, route_butterfly, Controls};
///
/// let controls = Controls::from([0x7, 0x1, 0x5, 0, 0, 0]);
/// let mut permutation = [0; 8];
/// for bit in 0..8 {
///     let place = butterfly(8, &controls, 1 << bit)?.trailing_zeros();
///     permutation[place as usize] = bit;
/// }
/// assert_eq!(route_butterfly(8, &permutation), Ok(controls));
/// # Ok::<(), tigbayon::Refusal>(())
/// ```
pub fn route_butterfly(width: u32, permutation: &[u8]) -> Result<Controls, Refusal> {
    ffi::tb_route_butterfly(width, permutation).into()
}

/// Finds the controls by which the inverse butterfly alone permutes every
/// word. There is at most one such set: accepted controls that move every word
/// alike are equal. So routing the permutation that controls realise gives them
/// back.
///
/// # Errors
///
/// [`Refusal::Width`], [`Refusal::Length`], [`Refusal::Entry`], and
/// [`Refusal::NotRealised`] if there are no such controls.
///
/// ```
/// use tigbayon::{inverse, route_inverse, Refusal};
///
/// let turn_by_one = [7, 0, 1, 2, 3, 4, 5, 6];
/// let controls = route_inverse(8, &turn_by_one)?;
/// assert_eq!(inverse(8, &controls, 0b1001_0110), Ok(0b0010_1101));
///
/// let refused = route_inverse(8, &[0, 4, 2, 3, 1, 5, 6, 7]);
/// assert_eq!(refused, Err(Refusal::NotRealised));
/// # Ok::<(), tigbayon::Refusal>(())
/// ```
pub fn route_inverse(width: u32, permutation: &[u8]) -> Result<Controls, Refusal> {
    ffi::tb_route_inverse(width, permutation).into()
}

/// Finds the masks by which [`group`](crate::group()) permutes every word, step by
/// step: a word is grouped by the first mask, what that answers by the second, and so
/// on.
///
/// There are as many steps as a network has stages: 3, 4, 5 or 6 at width 8, 16, 32 or
/// 64. The mask of step i, from 0, marks each bit whose present content must end at a
/// place with bit i zero; that is half of the bits, for the identity too. Different
/// permutations get different masks. The masks after the last step are zero: grouping
/// by them leaves a word as it is.
///
/// # Errors
///
/// [`Refusal::Width`], [`Refusal::Length`] and [`Refusal::Entry`].
///
/// ```
/// use tigbayon::{group, route_groups, Refusal};
///
/// let turn_by_one = [7, 0, 1, 2, 3, 4, 5, 6];
/// let masks = route_groups(8, &turn_by_one)?;
/// let mut word = 0b1001_0110;
/// for mask in masks {
///     word = group(8, mask, word)?.word;
/// }
/// assert_eq!(word, 0b0010_1101);
///
/// // Place 1 takes bit 4, and place 4 bit 1.
/// let masks = route_groups(8, &[0, 4, 2, 3, 1, 5, 6, 7])?;
/// assert_eq!(masks, [0x47, 0x63, 0x55, 0, 0, 0]);
///
/// assert_eq!(route_groups(8, &[0, 1, 2]), Err(Refusal::Length));
/// assert_eq!(route_groups(8, &[0, 0, 2, 3, 4, 5, 6, 7]), Err(Refusal::Entry));
/// # Ok::<(), tigbayon::Refusal>(())
/// ```
pub fn route_groups(width: u32, permutation: &[u8]) -> Result<[u64; 6], Refusal> {
    ffi::tb_route_groups(width, permutation).into()
}
