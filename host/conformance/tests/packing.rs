//! Library, wrapper and model agree on packing.

use conformance::low_ones;
use conformance::packing::{
    clean_end, spare, words_needed, COUNTS, LONGEST, PACKING_CALLS, UNPACK,
};
use conformance::samples::{for_each, mask_of, random_words, Random};

/// For each count of marked bits, the rightmost ones, the leftmost, and any.
fn masks(random: &mut Random) -> Vec<u64> {
    let of_count = |&count| {
        let leftmost = !low_ones(64 - count);
        [low_ones(count), leftmost, mask_of(random, count)]
    };
    COUNTS.iter().flat_map(of_count).collect()
}

/// All pairs of numbers up to this one.
fn pairs(most: usize) -> impl Iterator<Item = (usize, usize)> {
    (0..=most).flat_map(move |one| (0..=most).map(move |other| (one, other)))
}

/// Checks both calls on lists of these lengths: all ones over zeros, zeros over
/// ones, and random words over random words; unpack with a clean end too, else
/// ones and random words are mostly refused.
fn check_fillings(random: &mut Random, mask: u64, lengths: (usize, usize), cut: (usize, usize)) {
    let ((first, second), (a, b)) = (lengths, cut);
    let fillings = [
        (vec![u64::MAX; first], vec![0; second]),
        (vec![0; first], vec![u64::MAX; second]),
        (random_words(random, first), random_words(random, second)),
    ];
    for (mut first, second) in fillings {
        for call in PACKING_CALLS {
            call.check(mask, &first, a, b, &mut second.clone());
        }
        clean_end(mask, &mut first, a, b);
        UNPACK.check(mask, &first, a, b, &mut second.clone());
    }
}

#[test]
fn every_small_length_and_cut() {
    let mut random = Random::default();
    for mask in masks(&mut random) {
        for lengths in pairs(5) {
            for cut in pairs(6) {
                check_fillings(&mut random, mask, lengths, cut);
            }
        }
    }
}

/// Checks both calls on a list of this length, the other one being as long as
/// the bits need, one word shorter or longer, or as long as may be.
fn check_others(random: &mut Random, mask: u64, length: usize, (a, b): (usize, usize)) {
    let exact = words_needed(mask, a, b);
    let others = [exact, (exact + 1).min(LONGEST), LONGEST].map(|other| (other, 0));
    let one_short = exact.checked_sub(1).map(|other| (other, 10));
    for (other, number) in others.into_iter().chain(one_short) {
        for call in PACKING_CALLS {
            let (first, mut second) = call.lists(random, mask, (a, b), (length, other));
            call.assert_number(number, mask, &first, (a, b), &mut second);
        }
    }
    check_dirty_end(random, mask, length, (a, b));
}

/// Checks unpack with one spare bit that is a one, if there is any, and random
/// words beyond.
fn check_dirty_end(random: &mut Random, mask: u64, length: usize, (a, b): (usize, usize)) {
    if let Some((last, bits)) = spare(mask, a, b) {
        let lengths = (length, (last + 3).min(LONGEST));
        let (mut first, mut second) = UNPACK.lists(random, mask, (a, b), lengths);
        first[last] |= 1 << (bits.start + random.below(64 - bits.start));
        UNPACK.assert_number(11, mask, &first, (a, b), &mut second);
    }
}

/// Cuts of a list of this length: at both ends, at one, at none, and nothing.
fn cuts(random: &mut Random, length: usize) -> [(usize, usize); 6] {
    let mut below = || random.below(length as u32 + 1) as usize;
    let (one, other) = (below(), below());
    let (a, b) = (one.min(other), one.max(other));
    [
        (0, length),
        (0, b),
        (a, length),
        (a, b),
        (a, a),
        (length, length),
    ]
}

#[test]
fn random_masks_lengths_and_cuts() {
    let mut random = Random::default();
    for_each(64, 1, |mask, _| {
        let length = random.below(LONGEST as u32 + 1) as usize;
        for cut in cuts(&mut random, length) {
            check_others(&mut random, mask, length, cut);
        }
    });
}

#[test]
fn the_longest_lists_by_every_count_of_marked_bits() {
    let mut random = Random::default();
    for count in COUNTS {
        let mask = mask_of(&mut random, count);
        for length in [LONGEST - 1, LONGEST] {
            for cut in cuts(&mut random, length) {
                check_others(&mut random, mask, length, cut);
            }
        }
    }
}

/// Every count of marked bits, and every place where a field may begin.
#[test]
fn every_count_of_marked_bits() {
    let mut random = Random::default();
    for count in 0..=64 {
        let mask = mask_of(&mut random, count);
        for b in 0..=70 {
            check_others(&mut random, mask, 70, (0, b));
        }
    }
}
