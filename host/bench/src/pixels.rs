//! Planes of random pixels, of several shapes; each word timed.

use crate::contest::Contest;
use conformance::pixels::Shape;
use conformance::samples::{random_words, Random};
use std::cell::RefCell;
use std::iter::zip;
use tigbayon::{tb_despeckle, Refusal};

/// The shapes that methods are compared on: one row, rows of one word, and planes of
/// usual and of the greatest size.
const SHAPES: [Shape; 4] = [(1, 32), (32, 1), (32, 8), (64, 32)];

/// The most words of a list.
const LONGEST: usize = 2_048;

/// A call of a plane, its rows and words of a row, and a list to write into; it answers
/// the refusal.
type OfPlane = fn(&[u64], usize, usize, &mut [u64]) -> u8;

/// Despeckle beside its peers.
pub fn despeckle(name: &str) {
    for (rows, row_words) in SHAPES {
        let make = |random: &mut Random| Lists::of(random, (rows, row_words));
        let library = |lists: &Lists| lists.call(tb_despeckle);
        Contest::of_parts(rows * row_words, make, library)
            .peer("a window, by the table", checked(by_window))
            .within(1.1)
            .peer("the same, eight pixels a turn", checked(by_eights))
            .within(1.1)
            .peer("whole words", checked(by_words))
            .print(&format!("{name} a word, {rows}x{row_words}"));
    }
}

/// A plane, and a list that every contender writes to.
pub struct Lists {
    plane: Vec<u64>,
    shape: Shape,
    out: RefCell<Vec<u64>>,
}

impl Lists {
    /// A random plane of this shape.
    pub fn of(random: &mut Random, (rows, row_words): Shape) -> Self {
        let words = rows * row_words;
        Lists {
            plane: random_words(random, words),
            shape: (rows, row_words),
            out: RefCell::new(vec![0; words]),
        }
    }

    /// The library's call.
    pub fn despeckle(&self) -> u8 {
        self.call(tb_despeckle)
    }

    fn call(&self, call: OfPlane) -> u8 {
        let (rows, row_words) = self.shape;
        call(&self.plane, rows, row_words, &mut self.out.borrow_mut())
    }

    /// What a call answers and makes of the second list, all ones before.
    fn outcome(&self, call: OfPlane) -> (u8, Vec<u64>) {
        self.out.borrow_mut().fill(u64::MAX);
        (self.call(call), self.out.borrow().clone())
    }
}

/// A peer, which must write as the library does: a contest checks only what it answers.
fn checked(peer: OfPlane) -> impl Fn(&Lists) -> u8 + 'static {
    let mut random = Random::default();
    for shape in SHAPES {
        let lists = Lists::of(&mut random, shape);
        assert_eq!(lists.outcome(peer), lists.outcome(tb_despeckle));
    }
    move |lists| lists.call(peer)
}

/// The refusal of a plane and a list of these lengths; 0 if there is none.
fn refusal(length: usize, rows: usize, row_words: usize, out_length: usize) -> u8 {
    // None where it is greater than any length.
    let words = rows.checked_mul(row_words);
    if length > LONGEST || out_length > LONGEST {
        Refusal::Range as u8
    } else if words.is_none_or(|words| words > out_length) {
        Refusal::Short as u8
    } else if words == Some(0) || words != Some(length) {
        Refusal::Plane as u8
    } else {
        0
    }
}

/// A row with those above and below it, if there are any.
#[derive(Clone, Copy)]
struct Rows<'a> {
    above: Option<&'a [u64]>,
    own: &'a [u64],
    below: Option<&'a [u64]>,
}

/// Hands the rows of the plane, each with the one of the list that it is written to, to
/// a method, unless the call is refused.
#[inline(always)]
fn by_rows(
    plane: &[u64],
    (rows, row_words): Shape,
    out: &mut [u64],
    despeckle: impl Fn(Rows<'_>, &mut [u64]),
) -> u8 {
    let number = refusal(plane.len(), rows, row_words, out.len());
    if number != 0 {
        return number;
    }
    let row = |r: usize| plane.get(r * row_words..(r + 1) * row_words);
    let own_rows = plane.chunks_exact(row_words);
    for (r, (own, out)) in zip(own_rows, out.chunks_exact_mut(row_words)).enumerate() {
        let rows = Rows {
            above: r.checked_sub(1).and_then(row),
            own,
            below: row(r + 1),
        };
        despeckle(rows, out);
    }
    0
}

/// The rule by its number: the pixel, bit 4, and at least one other.
static TABLE: [u8; 512] = table();

const fn table() -> [u8; 512] {
    let mut table = [0; 512];
    let mut number = 0;
    while number < 512 {
        table[number] = (number & 1 << 4 != 0 && number != 1 << 4) as u8;
        number += 1;
    }
    table
}

/// A window of 3 by 3 pixels slides along each row, and its number is looked up.
fn by_window(plane: &[u64], rows: usize, row_words: usize, out: &mut [u64]) -> u8 {
    by_rows(plane, (rows, row_words), out, |rows, out| {
        row_by_window(rows, out, word_by_window)
    })
}

/// The same, eight pixels in an inner loop, as the library has it.
fn by_eights(plane: &[u64], rows: usize, row_words: usize, out: &mut [u64]) -> u8 {
    by_rows(plane, (rows, row_words), out, |rows, out| {
        row_by_window(rows, out, word_by_eights)
    })
}

/// A row, by a method for a word.
#[inline(always)]
fn row_by_window(
    rows: Rows<'_>,
    out: &mut [u64],
    word_by: impl Fn(usize, [u64; 3]) -> (u64, usize),
) {
    // Before the row: its first column is at the right of the window.
    let [above, own, below] = rows.at(0).map(|word| word >> 63);
    let mut number = step(0, above, own, below);
    for (at, word) in out.iter_mut().enumerate() {
        let next = rows.at(at + 1);
        let [above, own, below] = rows.at(at);
        let entering = [
            above << 1 | next[0] >> 63,
            own << 1 | next[1] >> 63,
            below << 1 | next[2] >> 63,
        ];
        (*word, number) = word_by(number, entering);
    }
}

/// The new word after this number, by the columns that enter the window; and the last
/// number.
fn word_by_window(mut number: usize, mut entering: [u64; 3]) -> (u64, usize) {
    let mut word = 0;
    for _ in 0..64 {
        let [above, own, below] = entering.map(|row| row >> 63);
        number = step(number, above, own, below);
        word = word << 1 | u64::from(TABLE[number]);
        entering = entering.map(|row| row << 1);
    }
    (word, number)
}

fn word_by_eights(mut number: usize, entering: [u64; 3]) -> (u64, usize) {
    let mut word = 0;
    for at in (0..64).step_by(8).rev() {
        let eight = entering.map(|row| row >> at);
        for place in (0..8).rev() {
            let [above, own, below] = eight.map(|row| row >> place & 1);
            number = step(number, above, own, below);
            word = word << 1 | u64::from(TABLE[number]);
        }
    }
    (word, number)
}

/// The number of the next pixel: a column leaves at the left, another enters.
fn step(number: usize, above: u64, own: u64, below: u64) -> usize {
    number << 1 & 0b110_110_110 | (above << 6 | own << 3 | below) as usize
}

impl Rows<'_> {
    /// The words at this number in each row; zeros where there is none.
    fn at(self, number: usize) -> [u64; 3] {
        let word = |row: &[u64]| row.get(number).copied().unwrap_or(0);
        [
            self.above.map_or(0, word),
            word(self.own),
            self.below.map_or(0, word),
        ]
    }
}

/// The eight neighbours of all pixels of a word at once.
fn by_words(plane: &[u64], rows: usize, row_words: usize, out: &mut [u64]) -> u8 {
    by_rows(plane, (rows, row_words), out, row_by_words)
}

fn row_by_words(rows: Rows<'_>, out: &mut [u64]) {
    let (mut last, mut present) = ([0; 3], rows.at(0));
    for (at, word) in out.iter_mut().enumerate() {
        let next = rows.at(at + 1);
        let beside = |r: usize| {
            let left = present[r] >> 1 | last[r] << 63;
            let right = present[r] << 1 | next[r] >> 63;
            left | right
        };
        let around = beside(0) | present[0] | beside(1) | beside(2) | present[2];
        *word = present[1] & around;
        (last, present) = (present, next);
    }
}

#[cfg(test)]
mod tests {
    use super::*;
    use conformance::pixels::{self, Plane};

    const PEERS: [OfPlane; 3] = [by_window, by_eights, by_words];

    /// The call is the model's in the answer and in every word.
    fn assert_same(plane: &[u64], shape: Shape, out: &[u64]) {
        let mut expected = out.to_vec();
        let answer = pixels::despeckle(plane, shape, &mut expected);
        for peer in PEERS {
            let mut out = out.to_vec();
            let number = peer(plane, shape.0, shape.1, &mut out);
            assert_eq!((number, &out), (answer.refusal, &expected), "{shape:?}");
        }
    }

    #[test]
    fn peers_do_as_the_model() {
        let mut random = Random::default();
        for _ in 0..500 {
            let shape = [6, 4].map(|bound| 1 + random.below(bound) as usize);
            let shape = (shape[0], shape[1]);
            let plane = Plane::any(&mut random, shape).words;
            let more = random.below(3) as usize;
            let out = random_words(&mut random, plane.len() + more);
            assert_same(&plane, shape, &out);
        }
    }

    #[test]
    fn peers_refuse_as_the_model() {
        let numbers = [0, 1, 2, 6, 1 << 32, 1 << 63, usize::MAX];
        let long = [0; LONGEST + 1];
        for rows in numbers {
            for row_words in numbers {
                for (length, out_length) in [(6, 6), (6, 5), (0, 0), (LONGEST + 1, 6)] {
                    let (plane, out) = (&long[..length], &long[..out_length]);
                    assert_same(plane, (rows, row_words), out);
                    assert_same(out, (rows, row_words), plane);
                }
            }
        }
    }
}
