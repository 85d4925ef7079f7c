//! Gather, scatter and group ("Lines, masks, orders" of paper 01, request 01 of
//! paper 02).

use crate::bits::{bits_of, marked, unmarked, word_of};
use crate::refusal::{has_one_at_or_above, is_width, Answer, ABOVE, WIDTH};

/// Paper 02: "Gather, scatter and group now answer the count of marked lines
/// beside the word, 0 to w." "A refused call shows 0."
#[derive(Clone, Copy, Debug, Default, PartialEq, Eq)]
pub struct Gathered {
    /// The count of marked bits.
    pub count: u32,
    /// The word.
    pub word: u64,
}

/// "Gather: if the marked lines, from the right, are m0, m1, .., then line i
/// of the result is line mi of the word. With k marked lines, lines k and up
/// are zero."
///
/// ```
/// use model::gather::{gather, Gathered};
/// use model::refusal::Answer;
///
/// // Row 1 of paper 01.
/// let answer = gather(8, 0xAD, 0xB6);
/// assert_eq!(answer.result, Gathered { count: 5, word: 0x1A });
/// // The same with a refused width.
/// let result = Gathered { count: 0, word: 0 };
/// assert_eq!(gather(12, 0xAD, 0xB6), Answer { refusal: 1, result });
/// ```
pub fn gather(width: u32, mask: u64, word: u64) -> Answer<Gathered> {
    answer(width, mask, word, |mask, word| {
        let mut result = vec![false; word.len()];
        for (i, m) in marked(mask).into_iter().enumerate() {
            result[i] = word[m];
        }
        result
    })
}

/// "Scatter: line mi of the result is line i of the word; unmarked lines are
/// zero."
///
/// ```
/// use model::gather::{scatter, Gathered};
///
/// // Row 2 of paper 01.
/// let answer = scatter(8, 0xAD, 0x1A);
/// assert_eq!(answer.result, Gathered { count: 5, word: 0xA4 });
/// ```
pub fn scatter(width: u32, mask: u64, word: u64) -> Answer<Gathered> {
    answer(width, mask, word, |mask, word| {
        let mut result = vec![false; word.len()];
        for (i, m) in marked(mask).into_iter().enumerate() {
            result[m] = word[i];
        }
        result
    })
}

/// "Group: lines 0 to k-1 as gather; lines k to w-1 are the unmarked lines in
/// their order. With k = 0 or k = w the word comes back."
///
/// ```
/// use model::gather::{group, Gathered};
///
/// // Row 3 of paper 01.
/// let answer = group(8, 0xAD, 0xB6);
/// assert_eq!(answer.result, Gathered { count: 5, word: 0x7A });
/// ```
pub fn group(width: u32, mask: u64, word: u64) -> Answer<Gathered> {
    answer(width, mask, word, |mask, word| {
        let sources = marked(mask).into_iter().chain(unmarked(mask));
        sources.map(|source| word[source]).collect()
    })
}

/// Refuses the call, or carries it out on the bits of mask and word, and counts
/// the marked ones.
fn answer(
    width: u32,
    mask: u64,
    word: u64,
    meaning: impl Fn(&[bool], &[bool]) -> Vec<bool>,
) -> Answer<Gathered> {
    let word_beyond = has_one_at_or_above(width, word);
    let mask_beyond = has_one_at_or_above(width, mask);
    let conditions = [
        (WIDTH, !is_width(width)),
        (ABOVE, word_beyond || mask_beyond),
    ];
    Answer::of(&conditions, || {
        let bits = |word| bits_of(width as usize, word);
        let mask = bits(mask);
        Gathered {
            count: marked(&mask).len() as u32,
            word: word_of(&meaning(&mask, &bits(word))),
        }
    })
}
