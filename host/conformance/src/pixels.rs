//! Despeckle beside its model, and planes for it.

use crate::lists::ListCall;
use crate::packing::LONGEST;
use crate::samples::{any_word, random_words, Random};
use model::refusal::Answer;

/// The rows of a plane, and the words of a row.
pub type Shape = (usize, usize);

/// Shapes of the longest planes, and of one word less.
pub const LONGEST_SHAPES: [Shape; 9] = [
    (1, LONGEST),
    (2, 1_024),
    (32, 64),
    (64, 32),
    (1_024, 2),
    (LONGEST, 1),
    (1, LONGEST - 1),
    (23, 89),
    (LONGEST - 1, 1),
];

/// The number that, multiplied by this odd one, wraps around to this product.
pub fn wrapping_to(product: usize, odd: usize) -> usize {
    // Each step doubles the bits in which it is the inverse, three at first.
    let step = |inverse: usize, _| {
        let rest = 2_usize.wrapping_sub(odd.wrapping_mul(inverse));
        inverse.wrapping_mul(rest)
    };
    product.wrapping_mul((0..5).fold(odd, step))
}

/// Despeckles all three ways, panics unless they agree in the answer and in every word
/// of either list, hands the answer back and leaves the words so.
pub fn despeckle(plane: &[u64], (rows, row_words): Shape, out: &mut [u64]) -> Answer<()> {
    let call = ListCall {
        raw: |plane: &[u64], out: &mut [u64]| Answer {
            refusal: tigbayon::tb_despeckle(plane, rows, row_words, out),
            result: (),
        },
        wrapped: |plane: &[u64], out: &mut [u64]| tigbayon::despeckle(plane, rows, row_words, out),
        model: |plane: &[u64], out: &mut [u64]| {
            model::pixels::despeckle(plane, rows, row_words, out)
        },
    };
    call.check(|| format!("despeckle {rows} {row_words}"), plane, out)
}

/// Checks that the call is refused by this number and leaves every word as it was, or,
/// if it is 0, that it is carried out.
pub fn assert_number(number: u8, plane: &[u64], shape: Shape, out: &mut [u64]) {
    let before = out.to_vec();
    let answer = despeckle(plane, shape, out);
    let input = || format!("{} words, {shape:?}, {}", plane.len(), before.len());
    assert_eq!(answer.refusal, number, "{}", input());
    assert!(number == 0 || out == before, "{}", input());
}

/// A plane of pixels, counted by row from the top and by column from the left.
#[derive(Clone, Debug, PartialEq, Eq)]
pub struct Plane {
    rows: usize,
    row_words: usize,
    /// Its words.
    pub words: Vec<u64>,
}

impl Plane {
    /// All pixels dark.
    pub fn dark(shape: Shape) -> Self {
        Plane::of(shape, |words| vec![0; words])
    }

    /// All pixels lit.
    pub fn lit(shape: Shape) -> Self {
        Plane::of(shape, |words| vec![u64::MAX; words])
    }

    /// Each pixel lit or dark, alike.
    pub fn random(random: &mut Random, shape: Shape) -> Self {
        Plane::of(shape, |words| random_words(random, words))
    }

    /// About one pixel in 2^n lit, or dark, or words of any shape.
    pub fn any(random: &mut Random, shape: Shape) -> Self {
        let (thinned, turned_over) = (random.below(8), random.below(2) == 1);
        let word = |random: &mut Random| {
            if thinned == 7 {
                return any_word(random, 64);
            }
            let lit = (0..thinned).fold(random.word(), |word, _| word & random.word());
            if turned_over {
                !lit
            } else {
                lit
            }
        };
        Plane::of(shape, |words| (0..words).map(|_| word(random)).collect())
    }

    fn of((rows, row_words): Shape, words: impl FnOnce(usize) -> Vec<u64>) -> Self {
        let words = words(rows * row_words);
        Plane {
            rows,
            row_words,
            words,
        }
    }

    /// Its rows, and the words of a row.
    pub fn shape(&self) -> Shape {
        (self.rows, self.row_words)
    }

    /// How many columns it has.
    pub fn columns(&self) -> usize {
        64 * self.row_words
    }

    /// Every row number with every column number.
    pub fn places(&self) -> impl Iterator<Item = (usize, usize)> {
        let columns = self.columns();
        (0..self.rows).flat_map(move |r| (0..columns).map(move |c| (r, c)))
    }

    /// The word of a pixel, and a one at its bit.
    fn bit(&self, (r, c): (usize, usize)) -> (usize, u64) {
        assert!(r < self.rows && c < self.columns(), "row {r}, column {c}");
        (r * self.row_words + c / 64, 1 << (63 - c % 64))
    }

    /// Whether the pixel is lit.
    pub fn is_lit(&self, place: (usize, usize)) -> bool {
        let (word, bit) = self.bit(place);
        self.words[word] & bit != 0
    }

    /// Turns the pixel over.
    pub fn turn_over(&mut self, place: (usize, usize)) {
        let (word, bit) = self.bit(place);
        self.words[word] ^= bit;
    }

    /// The same plane with these pixels turned over.
    pub fn with(mut self, places: &[(usize, usize)]) -> Self {
        places.iter().for_each(|&place| self.turn_over(place));
        self
    }

    /// The same plane with a picture in it, its top left at this place: lit where it
    /// has a `#`, and as it was where it has a `.`.
    pub fn drawn(mut self, (top, left): (usize, usize), picture: &str) -> Self {
        for (r, line) in picture.lines().enumerate() {
            for (c, _) in line.match_indices('#') {
                let (word, bit) = self.bit((top + r, left + c));
                self.words[word] |= bit;
            }
        }
        self
    }

    /// What the checked call makes of it, over words of zero, over ones, and before
    /// words that it must leave.
    pub fn despeckled(&self) -> Self {
        let length = self.words.len();
        let mut over_zeros = vec![0; length];
        assert_number(0, &self.words, self.shape(), &mut over_zeros);
        let mut over_ones = vec![u64::MAX; (length + 2).min(LONGEST)];
        assert_number(0, &self.words, self.shape(), &mut over_ones);
        let (new, beyond) = over_ones.split_at(length);
        assert_eq!(new, over_zeros);
        assert!(beyond.iter().all(|&word| word == u64::MAX));
        Plane {
            words: over_zeros,
            ..*self
        }
    }
}
