//! Planes of pixels (request 06 of paper 02).

use crate::bits::{bits_of, word_of};
use crate::packing::LONGEST;
use crate::refusal::{Answer, PLANE, RANGE, SHORT};

/// How many pixels a word has.
const WIDTH: usize = 64;

/// The pixels of a plane: its rows from the top, each from the left; true is lit.
type Pixels = Vec<Vec<bool>>;

/// "The new plane goes into a second lent strip."
///
/// "A strip above 2,048 words meets 9 and a second strip shorter than v×h words meets
/// 10"; the product is that of the numbers, which no word has to hold.
///
/// ```
/// use model::pixels::despeckle;
///
/// // Two rows of a word: two pixels meet at a corner, one is alone.
/// let mut out = [7; 3];
/// despeckle(&[0b1000_0001, 0b0100_0000], 2, 1, &mut out);
/// assert_eq!(out, [0b1000_0000, 0b0100_0000, 7]);
/// ```
pub fn despeckle(plane: &[u64], rows: usize, row_words: usize, out: &mut [u64]) -> Answer<()> {
    let words = rows as u128 * row_words as u128;
    let [length, out_length] = [plane.len(), out.len()].map(|length| length as u128);
    let conditions = [
        (RANGE, plane.len() > LONGEST || out.len() > LONGEST),
        (SHORT, out_length < words),
        (PLANE, rows == 0 || row_words == 0 || words != length),
    ];
    Answer::of(&conditions, || {
        let pixels = pixels_of(plane, row_words);
        let new = words_of(&despeckled(&pixels));
        // "its words past the plane keep their values"
        out[..new.len()].copy_from_slice(&new);
    })
}

/// "The output must equal that rule at every dot, edges included."
fn despeckled(pixels: &Pixels) -> Pixels {
    let new_row = |r: usize| {
        let columns = 0..pixels[r].len();
        columns.map(|c| is_lit(number(pixels, r, c))).collect()
    };
    (0..pixels.len()).map(new_row).collect()
}

/// "Each dot's three by three surroundings make a number from 0 to 511. The row above
/// fills bits 8 to 6 from the left, the own row 5 to 3, the row below 2 to 0."
fn number(pixels: &[Vec<bool>], r: usize, c: usize) -> usize {
    let mut number = 0;
    for (down, highest) in [(-1, 8), (0, 5), (1, 2)] {
        for (right, bit) in [(-1, highest), (0, highest - 1), (1, highest - 2)] {
            let (row, column) = (r.checked_add_signed(down), c.checked_add_signed(right));
            if pixel(pixels, row, column) {
                number += 1 << bit;
            }
        }
    }
    number
}

/// "dots outside the plane are dark"
fn pixel(pixels: &[Vec<bool>], r: Option<usize>, c: Option<usize>) -> bool {
    let row = r.and_then(|r| pixels.get(r));
    let pixel = row.and_then(|row| row.get(c?));
    pixel.copied().unwrap_or(false)
}

/// "the new dot is lit exactly if bit 4 and at least one other bit are one"
///
/// ```
/// use model::pixels::is_lit;
///
/// assert!(is_lit(0b000_011_000));
/// assert!(!is_lit(0b000_010_000));
/// assert!(!is_lit(0b111_101_111));
/// ```
pub fn is_lit(number: usize) -> bool {
    let bits = bits_of(9, number as u64);
    bits[4] && (0..9).any(|bit| bit != 4 && bits[bit])
}

/// "A plane is h rows of v words, the top row first, each row's leftmost dot in the
/// highest line of its first word"
fn pixels_of(plane: &[u64], row_words: usize) -> Pixels {
    let mut pixels = Pixels::new();
    for row in plane.chunks(row_words) {
        let mut from_left = Vec::new();
        for &word in row {
            let bits = bits_of(WIDTH, word);
            from_left.extend((0..WIDTH).rev().map(|line| bits[line]));
        }
        pixels.push(from_left);
    }
    pixels
}

/// The words of such rows.
fn words_of(pixels: &[Vec<bool>]) -> Vec<u64> {
    let mut words = Vec::new();
    for row in pixels {
        for from_left in row.chunks(WIDTH) {
            let bits: Vec<bool> = from_left.iter().copied().rev().collect();
            words.push(word_of(&bits));
        }
    }
    words
}
