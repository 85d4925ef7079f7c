//! Request 08 of paper 02: "Grouping by these masks in turn must bring every line of
//! every word to its place, at all four widths." Document 001, Section 2.3: permutations
//! "can be accomplished by a sequence of at most lg(n) of these grp instructions".

use conformance::call::{grouped, route_groups, ROUTE_GROUPS};
use conformance::controls::stages;
use conformance::low_ones;
use conformance::permutations::{
    all_of_width_8, identity, product, realised, reversal, rotation, swap, undoing, FIXED,
};
use conformance::refusals::assert_number;
use conformance::samples::for_each_permutation;
use model::groups::WIDTHS;
use model::permutation::permuted;
use std::collections::HashSet;

/// Checks that there are L masks, each of half of the bits, and that grouping by them
/// permutes each single bit, and these words.
fn assert_groups(width: u32, permutation: &[u8], words: impl IntoIterator<Item = u64>) {
    let masks = route_groups(width, permutation);
    let (masks, after) = masks.split_at(stages(width));
    let half = |mask: &u64| mask.count_ones() == width / 2;
    assert!(masks.iter().all(half), "{permutation:?}: {masks:x?}");
    assert!(after.iter().all(|&mask| mask == 0), "{permutation:?}");
    let single_bits = (0..width).map(|bit| 1 << bit);
    for word in single_bits.chain(words) {
        let expected = permuted(permutation, word);
        let result = grouped(width, masks, word);
        assert_eq!(result, expected, "{permutation:?} of {word:x}");
    }
}

#[test]
fn every_permutation_of_width_8_on_every_word() {
    for permutation in all_of_width_8() {
        assert_groups(8, &permutation, 0..=0xFF);
    }
}

#[test]
fn samples_of_widths_16_32_64() {
    for width in [16, 32, 64] {
        let count = for_each_permutation(width, 60, |permutation, word| {
            assert_groups(width, permutation, [word, !word & low_ones(width)])
        });
        assert!(count >= 2_000);
    }
}

#[test]
fn every_rotation_and_every_swap_of_two_bits() {
    for width in WIDTHS {
        for places in 0..width {
            assert_groups(width, &rotation(width, places), []);
        }
        for one in 0..width {
            for other in 0..one {
                assert_groups(width, &swap(width, one, other), []);
            }
        }
    }
}

#[test]
fn products_of_the_fixed_permutations() {
    for width in WIDTHS {
        for one in FIXED {
            for then in FIXED {
                assert_groups(width, &product(&one(width), &then(width)), []);
            }
        }
    }
}

/// For places 0 to 7, where the content that stands there before a step must end; and
/// the mask of the step.
type Step = ([u8; 8], u64);

/// Permutations with their steps, worked by hand. Marked is what must end at place 0, 2,
/// 4 or 6 in the first step, at 0, 1, 4 or 5 in the second, at 0, 1, 2 or 3 in the last.
/// It comes first, in order, and then the rest: so stands the next line.
const WORKED: [([u8; 8], [Step; 3]); 4] = [
    (
        [0, 1, 2, 3, 4, 5, 6, 7],
        [
            ([0, 1, 2, 3, 4, 5, 6, 7], 0b0101_0101),
            ([0, 2, 4, 6, 1, 3, 5, 7], 0b0101_0101),
            ([0, 4, 1, 5, 2, 6, 3, 7], 0b0101_0101),
        ],
    ),
    (
        [7, 6, 5, 4, 3, 2, 1, 0],
        [
            ([7, 6, 5, 4, 3, 2, 1, 0], 0b1010_1010),
            ([6, 4, 2, 0, 7, 5, 3, 1], 0b1010_1010),
            ([4, 0, 5, 1, 6, 2, 7, 3], 0b1010_1010),
        ],
    ),
    (
        [0, 4, 2, 3, 1, 5, 6, 7],
        [
            ([0, 4, 2, 3, 1, 5, 6, 7], 0b0100_0111),
            ([0, 4, 2, 6, 3, 1, 5, 7], 0b0110_0011),
            ([0, 4, 1, 5, 2, 6, 3, 7], 0b0101_0101),
        ],
    ),
    // Place 0 takes bit 1, so the content of place 1 must end at place 0.
    (
        [1, 2, 3, 4, 5, 6, 7, 0],
        [
            ([7, 0, 1, 2, 3, 4, 5, 6], 0b1010_1010),
            ([0, 2, 4, 6, 7, 1, 3, 5], 0b1010_0101),
            ([0, 4, 1, 5, 2, 6, 7, 3], 0b1001_0101),
        ],
    ),
];

#[test]
fn permutations_worked_by_hand() {
    for (permutation, steps) in WORKED {
        let masks = route_groups(8, &permutation);
        for (i, (ends, mask)) in steps.into_iter().enumerate() {
            assert_eq!(masks[i], mask, "step {i} of {permutation:?}");
            for (place, end) in ends.into_iter().enumerate() {
                let content = 1 << permutation[usize::from(end)];
                assert_eq!(grouped(8, &masks[..i], content), 1 << place);
            }
        }
        assert_eq!(masks[3..], [0; 3]);
    }
}

/// What agrees in the bits before bit i stands side by side at step i, an even number of
/// contents, in the order of their places or, by the reversal, against it: every other one
/// is marked, from the first or from the second on.
#[test]
fn the_identity_and_the_reversal_mark_every_other_bit() {
    for width in WIDTHS {
        for (permutation, every_other) in [
            (identity(width), 0x5555_5555_5555_5555),
            (reversal(width), 0xAAAA_AAAA_AAAA_AAAA),
        ] {
            let mut masks = [0; 6];
            masks[..stages(width)].fill(every_other & low_ones(width));
            assert_eq!(route_groups(width, &permutation), masks);
        }
    }
}

/// After step i the contents are in order of bits 0 to i of their places; those that agree
/// there stand as they did at first.
#[test]
fn each_step_sorts_by_one_bit_more() {
    for width in WIDTHS {
        for_each_permutation(width, 10, |permutation, _| {
            let masks = route_groups(width, permutation);
            let places = undoing(permutation);
            for i in 0..stages(width) {
                let mut contents = identity(width);
                contents.sort_by_key(|&bit| places[usize::from(bit)] % (2 << i));
                let moved = realised(width, |word| grouped(width, &masks[..=i], word));
                assert_eq!(moved, contents, "step {i} of {permutation:?}");
            }
        });
    }
}

/// The masks that a refused list answers are those of no permutation.
#[test]
fn masks_of_all_permutations_of_width_8_differ() {
    let permutations = all_of_width_8();
    let masks: HashSet<_> = permutations
        .map(|permutation| route_groups(8, &permutation))
        .collect();
    assert_eq!(masks.len(), 40_320);
    assert!(!masks.contains(&[0; 6]), "what refused lists answer");
}

/// "at all four widths": not at 128, though bytes name its bits, nor at the powers of two
/// below and above. The other widths are among the refused permutations.
#[test]
fn no_other_power_of_two_is_a_width() {
    for width in [1, 2, 4, 128, 256] {
        for permutation in [identity(width), reversal(width), rotation(width, 1)] {
            assert_number(&[ROUTE_GROUPS], 1, width, &permutation, ());
            assert_number(&[ROUTE_GROUPS], 1, width, &permutation[1..], ());
        }
        let repeated = vec![0; width as usize];
        assert_number(&[ROUTE_GROUPS], 1, width, &repeated, ());
        assert_number(&[ROUTE_GROUPS], 1, width, &[], ());
    }
}
