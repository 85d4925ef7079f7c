//! Paper 01's "Finder": its controls bring every bit of every word to its
//! place.

use conformance::call::{route, route_groups};
use conformance::permutations::{all_of_width_8, product, rotation, swap, FIXED};
use conformance::samples::for_each_permutation;
use conformance::{low_ones, WIDTHS};
use model::permutation::permuted;
use model::routing::Routed;
use tigbayon::{butterfly, inverse};

/// The word sent through butterfly and then inverse.
fn carried(width: u32, routed: Routed, word: u64) -> u64 {
    let half_way = butterfly(width, &routed.butterfly.into(), word).expect("accepted");
    inverse(width, &routed.inverse.into(), half_way).expect("accepted")
}

/// Checks that the first controls permute each single bit, and these words.
fn assert_routes(width: u32, permutation: &[u8], words: impl IntoIterator<Item = u64>) {
    let routed = route(width, permutation);
    let single_bits = (0..width).map(|bit| 1 << bit);
    for word in single_bits.chain(words) {
        let result = carried(width, routed, word);
        let expected = permuted(permutation, word);
        assert_eq!(result, expected, "{permutation:?} of {word:x}");
    }
}

#[test]
fn every_permutation_of_width_8_on_every_word() {
    for permutation in all_of_width_8() {
        assert_routes(8, &permutation, 0..=0xFF);
    }
}

#[test]
fn samples_of_widths_16_32_64() {
    let sampled = |width| {
        for_each_permutation(width, 300, |permutation, word| {
            assert_routes(width, permutation, [word, !word & low_ones(width)])
        })
    };
    let count: u32 = [16, 32, 64].map(sampled).iter().sum();
    assert!(count >= 30_000);
}

#[test]
fn every_rotation_and_every_swap_of_two_bits() {
    for width in WIDTHS {
        for places in 0..width {
            assert_routes(width, &rotation(width, places), []);
        }
        for one in 0..width {
            for other in 0..one {
                assert_routes(width, &swap(width, one, other), []);
            }
        }
    }
}

#[test]
fn products_of_the_fixed_permutations() {
    for width in WIDTHS {
        for one in FIXED {
            for then in FIXED {
                assert_routes(width, &product(&one(width), &then(width)), []);
            }
        }
    }
}

/// Where a permutation stands among other bytes, only its own entries count.
#[test]
fn bytes_beside_a_permutation_are_not_looked_at() {
    for width in WIDTHS {
        for_each_permutation(width, 3, |permutation, _| {
            let routed = route(width, permutation);
            let masks = route_groups(width, permutation);
            for (beside, before) in [(0, 1), (3, 2), (255, 7)] {
                let padding = vec![beside; before];
                let bytes = [&padding[..], permutation, &padding[..]].concat();
                let permutation = &bytes[before..before + permutation.len()];
                assert_eq!(route(width, permutation), routed);
                assert_eq!(route_groups(width, permutation), masks);
            }
        });
    }
}
