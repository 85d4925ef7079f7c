//! What the tests of refused calls share.

use crate::call::{By, Call};
use crate::{SIZES, WIDTHS};
use model::refusal::Answer;
use std::fmt::Debug;

/// Widths above 130, among them some that a narrower integer would cut to an
/// accepted one.
const HUGE_WIDTHS: [u32; 12] = [
    256,
    256 + 8,
    256 + 64,
    1 << 16,
    (1 << 16) + 16,
    (1 << 24) + 32,
    1 << 31,
    (1 << 31) + 64,
    u32::MAX - 64,
    u32::MAX - 8,
    u32::MAX - 1,
    u32::MAX,
];

/// Widths that are not accepted.
pub fn other_widths() -> impl Iterator<Item = u32> {
    let widths = (0..=130).chain(HUGE_WIDTHS);
    widths.filter(|width| !WIDTHS.contains(width))
}

/// Sizes of subwords that are not accepted.
pub fn other_sizes() -> impl Iterator<Item = u32> {
    let cut = (8..32).flat_map(|p| SIZES.map(|size| size | 1 << p));
    let above = (0..32).flat_map(|p| [1 << p, u32::MAX << p]);
    let sizes = (0..=600).chain(cut).chain(above);
    sizes.filter(|size| !SIZES.contains(size))
}

/// Checks that the calls are refused by this number, or carried out if it is 0.
pub fn assert_number<X, R, W>(
    calls: &[Call<X, R, W>],
    number: u8,
    width: u32,
    by: X::Input<'_>,
    word: W,
) where
    X: By + ?Sized,
    R: Copy + Debug + Default + PartialEq,
    W: Copy + Debug,
{
    for call in calls {
        let answer = call.check(width, by, word);
        let input = || format!("{} {width} {by:x?} {word:x?}", call.name);
        assert_eq!(answer.refusal, number, "{}", input());
        if number != 0 {
            assert_eq!(answer, Answer::refused(number), "{}", input());
        }
    }
}
