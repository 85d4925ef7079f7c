//! Subwords (request 05 of paper 02, by Tables 1 and 2 of document 002).

use crate::bits::{bits_of, word_of};
use crate::refusal::{Answer, SUBWORD};

/// Paper 02: "Their subword sizes are 1, 2, 4, 8, 16 and 32 bits"
const SIZES: [u32; 6] = [1, 2, 4, 8, 16, 32];

/// A word's subwords, the leftmost first, each as its bits from the left: "Letter a
/// of that paper's tables is the leftmost subword."
type Subwords<'a> = Vec<&'a [bool]>;

/// "it selects alternately from the corresponding subwords in the two source
/// registers, for each position in the result register"
///
/// ```
/// // Table 2: a B c D e F g H, two of these letters ones.
/// let answer = model::subwords::check(8, 0xFF00_0000_0000_0000, 0x00FF_0000_0000_0000);
/// assert_eq!(answer.result, 0xFFFF_0000_0000_0000);
/// ```
pub fn check(size: u32, first: u64, second: u64) -> Answer<u64> {
    answer(size, [first, second], checked)
}

/// "it performs a check on the two source registers, followed by an exchange
/// operation on the result"
///
/// ```
/// // Table 2: C D a b G H e f at size 16, D one.
/// let answer = model::subwords::excheck(16, 0, 0x0000_00FF_0000_0000);
/// assert_eq!(answer.result, 0x00FF_0000_0000_0000);
/// ```
pub fn excheck(size: u32, first: u64, second: u64) -> Answer<u64> {
    answer(size, [first, second], |words| exchanged([checked(words)]))
}

/// mixL: "interleave the corresponding "even" elements from the two source
/// registers, starting from the leftmost elements in each register"
///
/// ```
/// // Table 1: a A c C e E g G, A one.
/// let answer = model::subwords::mix_left(8, 0, 0xFF00_0000_0000_0000);
/// assert_eq!(answer.result, 0x00FF_0000_0000_0000);
/// ```
pub fn mix_left(size: u32, first: u64, second: u64) -> Answer<u64> {
    answer(size, [first, second], |words| {
        let even = words.map(|subwords| every_second(&subwords));
        interleaved(even)
    })
}

/// mixR: "interleave the corresponding "odd" elements from the two source
/// registers, ending with the rightmost elements in each register"
///
/// ```
/// // Table 1: e f g h E F G H at size 32, h one.
/// let answer = model::subwords::mix_right(32, 0xFF, 0);
/// assert_eq!(answer.result, 0x0000_00FF_0000_0000);
/// ```
pub fn mix_right(size: u32, first: u64, second: u64) -> Answer<u64> {
    answer(size, [first, second], |words| {
        let odd = words.map(|subwords| every_second(&subwords[1..]));
        interleaved(odd)
    })
}

/// "it swaps adjacent subwords in each pair of consecutive subwords"
///
/// ```
/// // Table 2: b a d c f e h g, a one.
/// let answer = model::subwords::exchange(8, 0xFF00_0000_0000_0000);
/// assert_eq!(answer.result, 0x00FF_0000_0000_0000);
/// ```
pub fn exchange(size: u32, word: u64) -> Answer<u64> {
    answer(size, [word], exchanged)
}

fn checked<'a>([first, second]: [Subwords<'a>; 2]) -> Subwords<'a> {
    let selected = |i| if i % 2 == 0 { first[i] } else { second[i] };
    (0..first.len()).map(selected).collect()
}

fn exchanged([mut subwords]: [Subwords<'_>; 1]) -> Subwords<'_> {
    subwords.chunks_mut(2).for_each(<[_]>::reverse);
    subwords
}

/// Numbers 0, 2, 4, .. of these.
fn every_second<'a>(subwords: &[&'a [bool]]) -> Subwords<'a> {
    subwords.iter().copied().step_by(2).collect()
}

fn interleaved<'a>([first, second]: [Subwords<'a>; 2]) -> Subwords<'a> {
    let pairs = first.into_iter().zip(second);
    pairs.flat_map(|(one, other)| [one, other]).collect()
}

/// Refuses the call, or carries it out on the subwords of these words.
fn answer<const N: usize>(
    size: u32,
    words: [u64; N],
    meaning: for<'a> fn([Subwords<'a>; N]) -> Subwords<'a>,
) -> Answer<u64> {
    let conditions = [(SUBWORD, !SIZES.contains(&size))];
    Answer::of(&conditions, || {
        let words = words.map(from_left);
        let subwords = words.each_ref().map(|bits| subwords_of(size, bits));
        let mut bits = meaning(subwords).concat();
        bits.reverse();
        word_of(&bits)
    })
}

/// The bits of a word, the leftmost first.
fn from_left(word: u64) -> Vec<bool> {
    let mut bits = bits_of(64, word);
    bits.reverse();
    bits
}

/// These bits by so many.
fn subwords_of(size: u32, bits: &[bool]) -> Subwords<'_> {
    bits.chunks(size as usize).collect()
}
