//! The decoder at width 64.

use crate::contest::Contest;
use crate::networks::{PAIRS, STAGES};
use crate::WIDTH;
use conformance::samples::Random;
use tigbayon::{tb_decode, TbControls2};

/// The decoder beside the same algorithm, others that go over the mask once, and
/// one that has the counts of all bits in three words.
pub fn decode(name: &str) {
    Contest::of(Random::word, |&mask| tb_decode(WIDTH, mask))
        .peer("the same algorithm", |&mask| {
            decoded_by(turned_by_cases, mask)
        })
        .within(2.0)
        .peer("the same, turning without a branch", |&mask| decoded(mask))
        .within(1.0)
        .peer("one pass, bit by bit", |&mask| {
            from_counts(counts_by_bit(mask))
        })
        .peer("one pass, eight bits at a time", |&mask| {
            from_counts(counts_by_byte(mask))
        })
        .peer("digits of all counts in words", |&mask| by_digits(mask))
        .print(name);
}

/// Algorithm 1, turning without a branch.
pub fn decoded(mask: u64) -> TbControls2 {
    decoded_by(turned_by_shift, mask)
}

/// Algorithm 1, given how to turn zeros.
fn decoded_by(turned_zeros: impl Fn(u32, u32) -> u64, mask: u64) -> TbControls2 {
    both(|distance| {
        stage_by(&turned_zeros, distance, |place| {
            (mask & ((1 << place) - 1)).count_ones()
        })
    })
}

/// The same from the counts of ones below each bit.
fn from_counts(counts: [u8; 64]) -> TbControls2 {
    both(|distance| {
        stage_by(turned_by_shift, distance, |place| {
            counts[place as usize].into()
        })
    })
}

/// Both networks' controls, given a stage's by its distance.
fn both(stage: impl Fn(u32) -> u32) -> TbControls2 {
    let butterfly: [u32; STAGES] = std::array::from_fn(|i| stage(WIDTH >> (i + 1)));
    let mut inverse = butterfly;
    inverse.reverse();
    TbControls2 {
        refusal: 0,
        butterfly,
        inverse,
    }
}

/// A stage's control bits, given how to turn zeros and the count of ones below a
/// place.
fn stage_by(
    turned_zeros: impl Fn(u32, u32) -> u64,
    distance: u32,
    count_below: impl Fn(u32) -> u32,
) -> u32 {
    (0..WIDTH / 2 / distance).fold(0, |stage, j| {
        let count = count_below(2 * j * distance + distance);
        stage | (turned_zeros(distance, count) as u32) << (j * distance)
    })
}

/// So many zeros turned left these steps: ones come in, then zeros again.
fn turned_by_cases(zeros: u32, steps: u32) -> u64 {
    let steps = steps % (2 * zeros);
    if steps <= zeros {
        (1 << steps) - 1
    } else {
        (1 << zeros) - (1 << (steps - zeros))
    }
}

/// The same: a run of as many ones comes in at the right and goes out at the
/// left.
fn turned_by_shift(zeros: u32, steps: u32) -> u64 {
    let ones = (1 << zeros) - 1;
    let steps = steps & (2 * zeros - 1);
    (ones << steps >> zeros) & ones
}

/// How many ones lie below each bit of a mask.
fn counts_by_bit(mask: u64) -> [u8; 64] {
    let mut below = 0;
    std::array::from_fn(|bit| {
        let count = below;
        below += (mask >> bit & 1) as u8;
        count
    })
}

/// The same, by sums in the bytes of a word.
fn counts_by_byte(mask: u64) -> [u8; 64] {
    const EVERY_BYTE: u64 = 0x0101_0101_0101_0101;
    let mut counts = [0; 64];
    let mut below = 0;
    for (byte, eight) in mask.to_le_bytes().iter().zip(counts.chunks_exact_mut(8)) {
        let apart = (u64::from(byte & 127) * 0x0002_0408_1020_4081) & EVERY_BYTE;
        let sums = (apart << 8).wrapping_mul(EVERY_BYTE);
        eight.copy_from_slice(&(below * EVERY_BYTE + sums).to_le_bytes());
        below += u64::from(byte.count_ones());
    }
    counts
}

/// The lowest three binary digits of all counts, each in a word, make the stages of
/// distance 1, 2 and 4 for all blocks at once; the others as before.
pub fn by_digits(mask: u64) -> TbControls2 {
    let ones = parities_below(mask);
    let twos = parities_below(mask & ones);
    let fours = parities_below(mask & ones & twos);
    both(|distance| match distance {
        1 => stage_of([ones]),
        2 => stage_of([twos ^ ones, twos]),
        4 => stage_of([
            fours ^ (twos | ones),
            fours ^ twos,
            fours ^ (twos & ones),
            fours,
        ]),
        _ => stage_by(turned_by_shift, distance, |place| {
            (mask & ((1 << place) - 1)).count_ones()
        }),
    })
}

/// Whether the ones below each bit are odd in number.
fn parities_below(ones: u64) -> u64 {
    (0..STAGES).fold(ones << 1, |parities, log| parities ^ parities << (1 << log))
}

/// The control bits of the stage of distance D, given each of a block's D in the
/// middle of its pairs.
fn stage_of<const D: usize>(lines: [u64; D]) -> u32 {
    let every_block = u64::MAX / ((1 << (2 * D)) - 1);
    let apart = (0..D).fold(0, |bits, t| bits | (lines[t] >> D & every_block) << t);
    let closed = (D.ilog2() as usize..STAGES - 1).fold(apart, |bits, log| {
        (bits | bits >> (1 << log)) & PAIRS[log + 1]
    });
    closed as u32
}
