//! Damaged cuts and lists of words get the lowest number that applies, zeros for the
//! rest, and every word stays as it was.

use conformance::packing::{bits, spare, words_needed};
use conformance::packing::{COUNTS, LONGEST, PACK, PACKING_CALLS, UNPACK};
use conformance::samples::{mask_of, random_words, Random};
use model::packing::Packed;
use std::collections::BTreeSet;

/// The words of row 11 of paper 01.
const ROW_11: [u64; 6] = [1, 2, 3, 4, 5, 0x9A6];

/// Numbers at, around and far beyond the ends of a list of this length, among
/// them some that a narrower integer would cut to lie within it.
fn numbers(length: usize) -> Vec<usize> {
    let half = 1 << (usize::BITS / 2);
    let top = 1 << (usize::BITS - 1);
    let mut numbers = vec![
        0,
        1,
        length / 2,
        length.saturating_sub(1),
        length,
        length + 1,
    ];
    numbers.extend([LONGEST, LONGEST + 1, 1 << 16, (1 << 16) + length]);
    numbers.extend([half - 1, half, half + length, top - 1, top, top + length]);
    // A count of bits that wraps around to nothing, or to a few.
    numbers.extend([top >> 5, (top >> 5) + 1, top >> 4, (top >> 4) + 1]);
    numbers.extend([usize::MAX - length, usize::MAX - 1, usize::MAX]);
    numbers
}

/// A mask with each of the counts of ones.
fn masks(random: &mut Random) -> [u64; COUNTS.len()] {
    COUNTS.map(|count| mask_of(random, count))
}

/// The number of a call on lists of these lengths.
fn number(mask: u64, (a, b): (usize, usize), cut: usize, other: usize) -> u8 {
    if a > b || b > cut || cut > LONGEST || other > LONGEST {
        9
    } else if other < words_needed(mask, a, b) {
        10
    } else {
        0
    }
}

/// Checks both calls on random words, lists of these lengths, and unpack on all
/// ones, of which spare bits are refusal 11 if nothing else is refused.
fn assert_number(random: &mut Random, mask: u64, cut: (usize, usize), length: usize, other: usize) {
    let number = number(mask, cut, length, other);
    for call in PACKING_CALLS {
        let (first, mut second) = call.lists(random, mask, cut, (length, other));
        call.assert_number(number, mask, &first, cut, &mut second);
    }
    let dirty = number == 0 && spare(mask, cut.0, cut.1).is_some();
    let number = if dirty { 11 } else { number };
    let mut out = random_words(random, length);
    UNPACK.assert_number(number, mask, &vec![u64::MAX; other], cut, &mut out);
}

#[test]
fn every_cut_that_does_not_lie_within_its_words_is_refusal_9() {
    let mut random = Random::default();
    for mask in masks(&mut random) {
        for length in [0, 1, 2, 5, 64] {
            for a in numbers(length) {
                for b in numbers(length) {
                    for other in [0, 1, length, 64] {
                        assert_number(&mut random, mask, (a, b), length, other);
                    }
                }
            }
        }
    }
}

#[test]
fn cuts_of_the_longest_lists() {
    let mut random = Random::default();
    let mask = mask_of(&mut random, 12);
    for length in [LONGEST - 1, LONGEST, LONGEST + 1] {
        for a in numbers(length) {
            for b in numbers(length) {
                assert_number(&mut random, mask, (a, b), length, 384);
            }
        }
    }
}

/// Even where there is nothing to read or to write.
#[test]
fn either_list_above_2048_words_is_refusal_9() {
    let mut random = Random::default();
    let lengths = [0, 1, LONGEST - 1, LONGEST];
    let long = [LONGEST + 1, 2 * LONGEST, 1 << 16, (1 << 16) + 5];
    for mask in [0, 0xFFF, u64::MAX] {
        for cut in [(0, 0), (0, 1), (0, LONGEST), (LONGEST, LONGEST), (1, 0)] {
            for length in lengths.into_iter().chain(long) {
                for other in lengths.into_iter().chain(long) {
                    assert_number(&mut random, mask, cut, length, other);
                }
            }
        }
    }
}

#[test]
fn each_other_list_is_refusal_10_exactly_if_too_short() {
    let mut random = Random::default();
    for mask in masks(&mut random) {
        for b in 0..=12 {
            for a in 0..=b {
                for other in 0..=13 {
                    assert_number(&mut random, mask, (a, b), 12, other);
                }
            }
        }
    }
}

/// The memory after a short list would complete it.
#[test]
fn short_parts_of_the_other_list_are_refusal_10() {
    let mut random = Random::default();
    for count in 1..=64 {
        let mask = mask_of(&mut random, count);
        let (words, mut other) = PACK.lists(&mut random, mask, (0, 64), (64, 64));
        for short in 0..words_needed(mask, 0, 64) {
            PACK.assert_number(10, mask, &words, (0, 64), &mut other[..short]);
            UNPACK.assert_number(10, mask, &words[..short], (0, 64), &mut other);
        }
    }
}

/// Each place of a spare bit, after any bits of fields and before any word; over
/// the counts of marked bits and of fields, each number of bits in the last word.
#[test]
fn each_spare_bit_alone_is_refusal_11() {
    let mut random = Random::default();
    let mut remainders = BTreeSet::new();
    for count in 0..=64 {
        let mask = mask_of(&mut random, count);
        for fields in 0..=64 {
            let cut = (2, 2 + fields);
            let lengths = (fields + 3, words_needed(mask, 0, fields) + 1);
            let (mut packed, mut out) = UNPACK.lists(&mut random, mask, cut, lengths);
            let bits = bits(mask, 0, fields) as usize;
            for n in bits..bits.next_multiple_of(64) {
                packed[n / 64] ^= 1 << (n % 64);
                UNPACK.assert_number(11, mask, &packed, cut, &mut out);
                packed[n / 64] ^= 1 << (n % 64);
            }
            UNPACK.assert_number(0, mask, &packed, cut, &mut out);
            remainders.insert(bits % 64);
        }
    }
    assert_eq!(remainders.len(), 64);
}

/// Among zeros: each bit of the fields, each spare bit, and each of the two words
/// beyond.
#[test]
fn each_bit_alone_is_refusal_11_exactly_if_it_is_spare() {
    let mut random = Random::default();
    for count in 0..=64 {
        let mask = mask_of(&mut random, count);
        for fields in 0..=5 {
            let bits = bits(mask, 0, fields) as usize;
            let spare = bits..bits.next_multiple_of(64);
            let mut packed = vec![0; words_needed(mask, 0, fields) + 2];
            for n in 0..64 * packed.len() {
                packed[n / 64] = 1 << (n % 64);
                let number = if spare.contains(&n) { 11 } else { 0 };
                let mut out = vec![7; fields];
                UNPACK.assert_number(number, mask, &packed, (0, fields), &mut out);
                packed[n / 64] = 0;
            }
        }
    }
}

/// Whatever the last one is: here all words are ones.
#[test]
fn full_words_have_no_spare_bits() {
    let mut random = Random::default();
    for count in 0..=64 {
        let mask = mask_of(&mut random, count);
        for fields in (0..=128).filter(|&fields| bits(mask, 0, fields) % 64 == 0) {
            let read = words_needed(mask, 0, fields);
            for length in [read, read + 1, LONGEST] {
                let mut out = vec![7; fields];
                UNPACK.assert_number(0, mask, &vec![u64::MAX; length], (0, fields), &mut out);
            }
        }
    }
}

/// Request 01 of paper 02: "A refused call shows 0", of a full mask too; the end of
/// full words is not refused.
#[test]
fn no_marked_bits_are_counted_beside_a_refusal() {
    let mut random = Random::default();
    let nothing = Packed { count: 0, bits: 0 };
    for call in PACKING_CALLS {
        for (number, (a, b), other) in [(9, (3, 2), 6), (9, (0, 7), 6), (10, (0, 6), 5)] {
            let (first, mut second) = call.lists(&mut random, u64::MAX, (a, b), (6, other));
            let answer = call.check(u64::MAX, &first, a, b, &mut second);
            assert_eq!((answer.refusal, answer.result), (number, nothing));
        }
    }
    for mask in [1, u64::MAX >> 1, u64::MAX << 1] {
        let answer = UNPACK.check(mask, &[u64::MAX; 6], 0, 6, &mut [7; 6]);
        assert_eq!((answer.refusal, answer.result), (11, nothing));
    }
}

/// The table's own examples: "a = 3, b = 2", and "case 11 with 1 word".
#[test]
fn examples_of_the_table_of_refusals() {
    for call in PACKING_CALLS {
        call.assert_number(9, 0xFFF, &ROW_11, (3, 2), &mut [7; 6]);
    }
    PACK.assert_number(10, 0xFFF, &ROW_11, (0, 6), &mut [7; 1]);
}

/// 9 with 10.
#[test]
fn the_lowest_number_wins() {
    PACK.assert_number(9, 0xFFF, &ROW_11, (0, 7), &mut [7; 1]);
    PACK.assert_number(9, 0xFFF, &ROW_11, (6, 0), &mut []);
    PACK.assert_number(9, 0xFFF, &[1; LONGEST + 1], (0, 6), &mut [7; 1]);
    for call in PACKING_CALLS {
        call.assert_number(9, u64::MAX, &[], (0, usize::MAX), &mut []);
        call.assert_number(9, u64::MAX, &[], (usize::MAX, 0), &mut []);
        call.assert_number(0, u64::MAX, &[], (0, 0), &mut []);
    }
}

/// 11 with 9, with 10, where the end is not there to be read, and with both.
#[test]
fn a_spare_bit_is_refused_last() {
    let ones = [u64::MAX; LONGEST + 1];
    UNPACK.assert_number(11, 0xFFF, &ones[..2], (0, 6), &mut [7; 6]);
    UNPACK.assert_number(9, 0xFFF, &ones[..2], (0, 6), &mut [7; 5]);
    UNPACK.assert_number(9, 0xFFF, &ones[..2], (6, 0), &mut [7; 6]);
    UNPACK.assert_number(9, 0xFFF, &ones[..2], (0, 6), &mut [7; LONGEST + 1]);
    UNPACK.assert_number(9, 0xFFF, &ones, (0, 6), &mut [7; 6]);
    UNPACK.assert_number(10, 0xFFF, &ones[..1], (0, 6), &mut [7; 6]);
    UNPACK.assert_number(9, 0xFFF, &ones[..1], (0, 6), &mut [7; 5]);
}

/// Not of what it reads nor of what it writes over.
#[test]
fn pack_refuses_no_spare_bit() {
    let mut random = Random::default();
    for count in 0..=64 {
        let mask = mask_of(&mut random, count);
        for fields in 0..=6 {
            let mut out = vec![u64::MAX; words_needed(mask, 0, fields) + 1];
            PACK.assert_number(0, mask, &[u64::MAX; 6], (0, fields), &mut out);
        }
    }
}
