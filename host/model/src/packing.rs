//! Packed words ("Strips" of paper 01, requests 01 and 02 of paper 02).

use crate::bits::{bits_of, marked, word_of};
use crate::refusal::{Answer, RANGE, SHORT, SPARE};

/// "Strips and the register unit use width 64."
const WIDTH: usize = 64;

/// "either strip above 2,048 words"
pub(crate) const LONGEST: usize = 2_048;

/// Paper 02, of the count of marked lines: "Pack and unpack answer it too,
/// beside the bits. A refused call shows 0."
#[derive(Clone, Copy, Debug, Default, PartialEq, Eq)]
pub struct Packed {
    /// The count of marked bits.
    pub count: u32,
    /// How many bits were packed or unpacked.
    pub bits: u64,
}

/// "It reads the words from number a up to, not including, number b. Each
/// word's k gathered bits form a field. Field 0 begins at bit 0 of word 0 of the
/// second strip. The next field begins at the bit after the last one, crossing
/// into the next word where needed."
///
/// ```
/// use model::packing::{pack, Packed};
///
/// // Row 11 of paper 01.
/// let mut out = [0; 2];
/// let answer = pack(0xFFF, &[1, 2, 3, 4, 5, 0x9A6], 0, 6, &mut out);
/// assert_eq!(answer.result, Packed { count: 12, bits: 72 });
/// assert_eq!(out, [0x6005004003002001, 0x9A]);
/// ```
pub fn pack(mask: u64, words: &[u64], a: usize, b: usize, out: &mut [u64]) -> Answer<Packed> {
    let marked = marked(&bits_of(WIDTH, mask));
    let conditions = conditions(marked.len(), a, b, words.len(), out.len());
    Answer::of(&conditions, || {
        let mut stream = Vec::new();
        for &word in &words[a..b] {
            let word = bits_of(WIDTH, word);
            stream.extend(marked.iter().map(|&m| word[m]));
        }
        // "Spare bits of the last word written become zero; words after it keep
        // their values."
        for (written, bits) in out.iter_mut().zip(stream.chunks(WIDTH)) {
            *written = word_of(bits);
        }
        Packed {
            count: marked.len() as u32,
            bits: stream.len() as u64,
        }
    })
}

/// "Unpack reads fields so laid from the first strip, writes each scattered
/// into words a to b-1 of the second, and keeps its other words."
///
/// Paper 02: "From this release the spare bits of the last word that unpack reads
/// must be zero." "Words beyond the last one read stay free."
///
/// ```
/// use model::packing::{unpack, Packed};
/// use model::refusal::{Answer, SPARE};
///
/// let mut out = [7; 4];
/// let answer = unpack(0xF0, &[0x21, 5], 1, 3, &mut out);
/// assert_eq!(answer.result, Packed { count: 4, bits: 8 });
/// assert_eq!(out, [7, 0x10, 0x20, 7]);
///
/// let answer = unpack(0xF0, &[0x121], 1, 3, &mut out);
/// assert_eq!(answer, Answer::refused(SPARE));
/// ```
pub fn unpack(mask: u64, packed: &[u64], a: usize, b: usize, out: &mut [u64]) -> Answer<Packed> {
    let marked = marked(&bits_of(WIDTH, mask));
    let [range, short] = conditions(marked.len(), a, b, out.len(), packed.len());
    let spare = (SPARE, spare_one(bits(marked.len(), a, b), packed));
    Answer::of(&[range, short, spare], || {
        let mut stream = packed.iter().flat_map(|&word| bits_of(WIDTH, word));
        let mut bits = 0;
        for written in &mut out[a..b] {
            let mut word = vec![false; WIDTH];
            for &m in &marked {
                word[m] = stream.next().expect("the words hold the bits");
                bits += 1;
            }
            *written = word_of(&word);
        }
        let count = marked.len() as u32;
        Packed { count, bits }
    })
}

/// The refusals that both calls share, each with whether it applies: a and b cut
/// words of length `cut`, and the other list holds the k×(b-a) bits.
fn conditions(k: usize, a: usize, b: usize, cut: usize, other: usize) -> [(u8, bool); 2] {
    let room = WIDTH as u128 * other as u128;
    [
        (RANGE, a > b || b > cut || cut > LONGEST || other > LONGEST),
        (SHORT, bits(k, a, b) > room),
    ]
}

/// "k×(b-a)"; no bits if a is above b.
fn bits(k: usize, a: usize, b: usize) -> u128 {
    k as u128 * b.saturating_sub(a) as u128
}

/// Paper 02: "a spare bit is one". Spare are the bits after so many, up to the
/// end of the word that holds the last of them; where that word is not there,
/// none is one.
fn spare_one(bits: u128, packed: &[u64]) -> bool {
    let width = WIDTH as u128;
    (bits..bits.next_multiple_of(width)).any(|n| {
        let word = packed.get((n / width) as usize);
        word.is_some_and(|&word| bits_of(WIDTH, word)[(n % width) as usize])
    })
}
