//! Bit planes of sixty-four bytes, on random words.

use crate::contest::{apart, Contest};
use crate::networks::PAIRS;
use crate::tiles;
use conformance::planes::Words;
use conformance::samples::random_eight;
use std::array;
use std::hint::black_box;
use tigbayon::{tb_from_planes, tb_to_planes};

/// Bytes to planes beside their peers.
pub fn to_planes(name: &str) {
    Contest::of(random_eight, |words| tb_to_planes(words).words)
        .peer("bit loop", to_planes_by_loop)
        .peer("delta swaps and a byte shuffle", to_planes_by_swaps)
        .peer("the same 24 steps", to_planes_by_steps)
        .within(1.0)
        .beside("24 steps that wait for no other", |words| {
            apart(&packed_alone, words)
        })
        .print(name);
}

/// Planes to bytes beside their peers.
pub fn from_planes(name: &str) {
    Contest::of(random_eight, |planes| tb_from_planes(planes).words)
        .peer("bit loop", from_planes_by_loop)
        .peer("delta swaps and a byte shuffle", from_planes_by_swaps)
        .peer("the same 24 steps", from_planes_by_steps)
        .within(1.0)
        .beside("24 steps that wait for no other", |planes| {
            apart(&merged_alone, planes)
        })
        .print(name);
}

fn to_planes_by_loop(words: &Words) -> Words {
    let mut planes = [0; 8];
    for n in 0..64 {
        for (p, plane) in planes.iter_mut().enumerate() {
            *plane |= (words[n / 8] >> (n % 8 * 8 + p) & 1) << n;
        }
    }
    planes
}

fn from_planes_by_loop(planes: &Words) -> Words {
    let mut words = [0; 8];
    for n in 0..64 {
        for (p, plane) in planes.iter().enumerate() {
            words[n / 8] |= (plane >> n & 1) << (n % 8 * 8 + p);
        }
    }
    words
}

/// Within each word byte p takes bit p of every byte; then plane p takes byte p of
/// every word.
fn to_planes_by_swaps(words: &Words) -> Words {
    shuffled(&words.map(tiles::by_swaps))
}

fn from_planes_by_swaps(planes: &Words) -> Words {
    shuffled(planes).map(tiles::by_swaps)
}

/// Byte k of word p is byte p of word k: blocks of four bytes are exchanged, then
/// of two, then single ones.
fn shuffled(words: &Words) -> Words {
    let words = exchanged::<2>(words);
    let words = exchanged::<1>(&words);
    exchanged::<0>(&words)
}

/// Exchanges the upper blocks of 2^LOG bytes of a word with the lower ones of the
/// word 2^LOG after it.
fn exchanged<const LOG: usize>(words: &Words) -> Words {
    let (bits, lower) = (8 << LOG, PAIRS[3 + LOG]);
    array::from_fn(|k| {
        let other = words[k ^ 1 << LOG];
        match k >> LOG & 1 {
            0 => words[k] & lower | (other & lower) << bits,
            _ => words[k] & !lower | (other & !lower) >> bits,
        }
    })
}

/// Fields of 8, of 4 and of 2 bits, packed.
fn to_planes_by_steps(words: &Words) -> Words {
    let nibbles = packed(words, 4, halves_of_8);
    let pairs = packed(&nibbles, 2, halves_of_4);
    in_order(&packed(&pairs, 1, halves_of_2))
}

fn from_planes_by_steps(planes: &Words) -> Words {
    let pairs = merged(&in_order(planes), 1, spread_to_2);
    let nibbles = merged(&pairs, 2, spread_to_4);
    merged(&nibbles, 4, spread_to_8)
}

/// The same steps, each on the words themselves, so that none waits for another. In
/// the black box the compiler loses sight of what steps of two widths share.
fn packed_alone(words: &Words) -> Words {
    let nibbles = packed(black_box(words), 4, halves_of_8);
    let pairs = packed(black_box(words), 2, halves_of_4);
    together(nibbles, pairs, packed(words, 1, halves_of_2))
}

fn merged_alone(planes: &Words) -> Words {
    let pairs = merged(black_box(planes), 1, spread_to_2);
    let nibbles = merged(black_box(planes), 2, spread_to_4);
    together(pairs, nibbles, merged(planes, 4, spread_to_8))
}

/// Something of every result.
fn together(one: Words, other: Words, third: Words) -> Words {
    array::from_fn(|i| one[i] ^ other[i] ^ third[i])
}

/// Eight packing steps: words 2i and 2i + 1 give the lower halves of their fields,
/// `half` bits each, to word i, and the upper ones to word i + 4. Inlined like all
/// that it calls, so that the moves are constants.
#[inline(always)]
fn packed(words: &Words, half: u32, halves: impl Fn(u64) -> u64) -> Words {
    let step = |i: usize, place: u32| {
        let [one, other] = [words[2 * i], words[2 * i + 1]];
        halves(one >> place) | halves(other >> place) << 32
    };
    [
        step(0, 0),
        step(1, 0),
        step(2, 0),
        step(3, 0),
        step(0, half),
        step(1, half),
        step(2, half),
        step(3, half),
    ]
}

/// Eight merging steps, the way back.
#[inline(always)]
fn merged(words: &Words, half: u32, spread: impl Fn(u64) -> u64) -> Words {
    let step = |i: usize, place: u32| {
        let [lower, upper] = [words[i], words[i + 4]];
        spread(lower >> place) | spread(upper >> place) << half
    };
    [
        step(0, 0),
        step(0, 32),
        step(1, 0),
        step(1, 32),
        step(2, 0),
        step(2, 32),
        step(3, 0),
        step(3, 32),
    ]
}

/// The lower halves of fields of 8 bits, end to end.
#[inline(always)]
fn halves_of_8(word: u64) -> u64 {
    let word = word & PAIRS[2];
    let word = (word | word >> 4) & PAIRS[3];
    let word = (word | word >> 8) & PAIRS[4];
    (word | word >> 16) & PAIRS[5]
}

/// Of 4 bits: two halves become one of twice the size.
#[inline(always)]
fn halves_of_4(word: u64) -> u64 {
    let word = word & PAIRS[1];
    halves_of_8(word | word >> 2)
}

#[inline(always)]
fn halves_of_2(word: u64) -> u64 {
    let word = word & PAIRS[0];
    halves_of_4(word | word >> 1)
}

/// The lower 32 bits, spread to the lower halves of fields of 8 bits.
#[inline(always)]
fn spread_to_8(word: u64) -> u64 {
    let word = word & PAIRS[5];
    let word = (word | word << 16) & PAIRS[4];
    let word = (word | word << 8) & PAIRS[3];
    (word | word << 4) & PAIRS[2]
}

#[inline(always)]
fn spread_to_4(word: u64) -> u64 {
    let word = spread_to_8(word);
    (word | word << 2) & PAIRS[1]
}

#[inline(always)]
fn spread_to_2(word: u64) -> u64 {
    let word = spread_to_4(word);
    (word | word << 1) & PAIRS[0]
}

/// Packing three times sorts the planes by their numbers read backwards, in base
/// two.
fn in_order(planes: &Words) -> Words {
    [0, 4, 2, 6, 1, 5, 3, 7].map(|p| planes[p])
}

#[cfg(test)]
mod tests {
    use super::*;
    use conformance::planes::{FROM_PLANES, TO_PLANES};
    use conformance::samples::{any_eight, Random};

    /// The answer of `check` is the model's.
    #[test]
    fn every_peer_answers_as_the_model_does() {
        let mut random = Random::default();
        for _ in 0..2_000 {
            let words = any_eight(&mut random);
            for peer in [to_planes_by_loop, to_planes_by_swaps, to_planes_by_steps] {
                assert_eq!(peer(&words), TO_PLANES.check(words));
            }
            for peer in [
                from_planes_by_loop,
                from_planes_by_swaps,
                from_planes_by_steps,
            ] {
                assert_eq!(peer(&words), FROM_PLANES.check(words));
            }
        }
    }
}
