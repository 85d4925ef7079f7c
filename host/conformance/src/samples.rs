//! Random and structured words, controls and permutations, the same in every
//! run.

use crate::controls::{stages, Controls};
use crate::low_ones;
use crate::permutations::{identity, product, realised, rotation, swap, FIXED};
use model::network;
use model::planes::Words;
use model::prepared::Swaps;
use model::refusal::Answer;

/// The seed of every test's samples.
pub const SEED: u64 = 0x5449_4742_4159_4F4E;

/// SplitMix64, by default from [`SEED`].
pub struct Random(u64);

impl Default for Random {
    fn default() -> Self {
        Random::from(SEED)
    }
}

impl From<u64> for Random {
    fn from(seed: u64) -> Self {
        Random(seed)
    }
}

impl Random {
    /// The next 64 random bits.
    pub fn word(&mut self) -> u64 {
        self.0 = self.0.wrapping_add(0x9E37_79B9_7F4A_7C15);
        let mut z = self.0;
        z = (z ^ (z >> 30)).wrapping_mul(0xBF58_476D_1CE4_E5B9);
        z = (z ^ (z >> 27)).wrapping_mul(0x94D0_49BB_1331_11EB);
        z ^ (z >> 31)
    }

    /// A random number below `bound`.
    pub fn below(&mut self, bound: u32) -> u32 {
        (self.word() % u64::from(bound)) as u32
    }

    /// A random byte.
    pub fn byte(&mut self) -> u8 {
        self.word() as u8
    }

    /// One of these.
    pub fn pick<T: Copy>(&mut self, choices: &[T]) -> T {
        choices[self.below(choices.len() as u32) as usize]
    }
}

/// A kind of word; made for a width, it may have ones above it, which
/// [`word`] cuts off.
type Shape = fn(&mut Random, u32) -> u64;

const SHAPES: [Shape; 10] = [
    |_, _| 0,
    |_, _| u64::MAX,
    |random, _| random.word(),
    // Sparse and dense: about one bit in eight is a one, or a zero.
    |random, _| random.word() & random.word() & random.word(),
    |random, _| random.word() | random.word() | random.word(),
    run,
    |random, width| run(random, width) ^ run(random, width) ^ run(random, width),
    // One bit set, one bit clear.
    |random, width| 1 << random.below(width),
    |random, width| !(1 << random.below(width)),
    // One byte repeated.
    |random, _| (random.word() & 0xFF) * 0x0101_0101_0101_0101,
];

/// One run of ones.
fn run(random: &mut Random, width: u32) -> u64 {
    let start = random.below(width);
    low_ones(1 + random.below(width - start)) << start
}

/// A word of this shape and width.
fn word(random: &mut Random, shape: Shape, width: u32) -> u64 {
    shape(random, width) & low_ones(width)
}

/// A word of some shape.
pub fn any_word(random: &mut Random, width: u32) -> u64 {
    let shape = random.pick(&SHAPES);
    word(random, shape, width)
}

/// Controls of this width, each stage of this shape.
fn controls(random: &mut Random, shape: Shape, width: u32) -> Controls {
    let mut controls = Controls::default();
    for stage in &mut controls[..stages(width)] {
        *stage = word(random, shape, width / 2) as u32;
    }
    controls
}

/// Controls whose stages have some shape.
pub fn any_controls(random: &mut Random, width: u32) -> Controls {
    let shape = random.pick(&SHAPES);
    controls(random, shape, width)
}

/// Six words of this shape and width, which mark upper bits too.
fn swaps(random: &mut Random, shape: Shape, width: u32) -> Swaps {
    [(); 6].map(|()| word(random, shape, width))
}

/// Six words of some shape.
pub fn any_swaps(random: &mut Random) -> Swaps {
    let shape = random.pick(&SHAPES);
    swaps(random, shape, 64)
}

/// Eight random words.
pub fn random_eight(random: &mut Random) -> Words {
    [(); 8].map(|()| random.word())
}

/// Eight words of one shape or of any, one repeated, one among zeros, or a single
/// bit.
pub fn any_eight(random: &mut Random) -> Words {
    let shape = random.pick(&SHAPES);
    let one = word(random, shape, 64);
    let mut alone = [0; 8];
    match random.below(5) {
        0 => return [(); 8].map(|()| word(random, shape, 64)),
        1 => return [(); 8].map(|()| any_word(random, 64)),
        2 => return [one; 8],
        3 => alone[random.below(8) as usize] = one,
        _ => alone[random.below(8) as usize] = 1 << random.below(64),
    }
    alone
}

/// A kind of permutation, made for a width.
type PermutationShape = fn(&mut Random, u32) -> Vec<u8>;

const PERMUTATION_SHAPES: [PermutationShape; 6] = [
    |random, width| random.pick(&FIXED)(width),
    |random, width| rotation(width, random.below(width)),
    |random, width| swap(width, random.below(width), random.below(width)),
    random_permutation,
    |random, width| by_network(random, width, network::butterfly),
    |random, width| by_network(random, width, network::inverse),
];

/// A permutation of some shape.
pub fn any_permutation(random: &mut Random, width: u32) -> Vec<u8> {
    random.pick(&PERMUTATION_SHAPES)(random, width)
}

/// A permutation, any of them alike.
pub fn random_permutation(random: &mut Random, width: u32) -> Vec<u8> {
    let mut permutation = identity(width);
    for place in 1..width {
        permutation.swap(place as usize, random.below(place + 1) as usize);
    }
    permutation
}

/// A mask of width 64 with so many ones, any of them alike.
pub fn mask_of(random: &mut Random, ones: u32) -> u64 {
    let bits = random_permutation(random, 64);
    bits[..ones as usize].iter().map(|bit| 1 << bit).sum()
}

/// So many random words.
pub fn random_words(random: &mut Random, length: usize) -> Vec<u64> {
    (0..length).map(|_| random.word()).collect()
}

/// What one network, on controls of some shape, makes of the bits.
fn by_network(
    random: &mut Random,
    width: u32,
    network: fn(u32, &Controls, u64) -> Answer<u64>,
) -> Vec<u8> {
    let controls = any_controls(random, width);
    realised(width, |word| network(width, &controls, word).result)
}

/// Hands `rounds` products of each pair of shapes of permutations, each with a
/// random word, to `test`, and answers how many that were.
pub fn for_each_permutation(width: u32, rounds: u32, mut test: impl FnMut(&[u8], u64)) -> u32 {
    let mut random = Random::default();
    let mut count = 0;
    for first in PERMUTATION_SHAPES {
        for second in PERMUTATION_SHAPES {
            for _ in 0..rounds {
                let one = first(&mut random, width);
                let then = second(&mut random, width);
                let word = random.word() & low_ones(width);
                test(&product(&one, &then), word);
                count += 1;
            }
        }
    }
    count
}

/// Hands `rounds` masks and words of each pair of shapes to `test`, and
/// answers how many that were.
pub fn for_each(width: u32, rounds: u32, test: impl FnMut(u64, u64)) -> u32 {
    for_each_pair(width, rounds, word, test)
}

/// Hands `rounds` controls and words of each pair of shapes to `test`, and
/// answers how many that were.
pub fn for_each_controls(width: u32, rounds: u32, test: impl FnMut(Controls, u64)) -> u32 {
    for_each_pair(width, rounds, controls, test)
}

/// Hands `rounds` six words and words of each pair of shapes to `test`, and
/// answers how many that were.
pub fn for_each_swaps(rounds: u32, test: impl FnMut(Swaps, u64)) -> u32 {
    for_each_pair(64, rounds, swaps, test)
}

fn for_each_pair<X>(
    width: u32,
    rounds: u32,
    make: fn(&mut Random, Shape, u32) -> X,
    mut test: impl FnMut(X, u64),
) -> u32 {
    let mut random = Random::default();
    let mut count = 0;
    for first in SHAPES {
        for second in SHAPES {
            for _ in 0..rounds {
                let made = make(&mut random, first, width);
                test(made, word(&mut random, second, width));
                count += 1;
            }
        }
    }
    count
}
