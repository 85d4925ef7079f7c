//! Permutations ("Lines, masks, orders" of paper 01, which calls them orders).

use crate::bits::{bits_of, word_of};
use crate::refusal::{ENTRY, LENGTH, WIDTH};

/// "Entry p names the line of the word that result line p takes."
///
/// The entries must lie below their number, which is the word's width.
///
/// ```
/// use model::permutation::permuted;
///
/// assert_eq!(permuted(&[1, 2, 3, 4, 5, 6, 7, 0], 0b1011_0110), 0b0101_1011);
/// assert_eq!(permuted(&[1, 2, 3, 4, 5, 6, 7, 0], 0b0000_0001), 0b1000_0000);
/// ```
pub fn permuted(permutation: &[u8], word: u64) -> u64 {
    let word = bits_of(permutation.len(), word);
    let sources = permutation.iter().map(|&entry| usize::from(entry));
    word_of(&sources.map(|source| word[source]).collect::<Vec<_>>())
}

/// The refusals of every call of a permutation, each with whether it applies, where
/// the call accepts these widths.
///
/// "order not w long"; "order entry w or above, or repeated"
pub(crate) fn conditions(widths: &[u32], width: u32, permutation: &[u8]) -> [(u8, bool); 3] {
    let beyond = permutation.iter().any(|&entry| u32::from(entry) >= width);
    [
        (WIDTH, !widths.contains(&width)),
        (LENGTH, permutation.len() != width as usize),
        (ENTRY, beyond || has_repeated(permutation)),
    ]
}

fn has_repeated(permutation: &[u8]) -> bool {
    let mut named = [false; 256];
    let mut entries = permutation.iter().map(|&entry| usize::from(entry));
    entries.any(|entry| std::mem::replace(&mut named[entry], true))
}
