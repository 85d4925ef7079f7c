//! Damaged permutations get the lowest number that applies, and zeros for the
//! rest.

use conformance::call::{ROUTE, ROUTE_GROUPS, ROUTE_ONE};
use conformance::permutations::{identity, index_reversal, reversal, swap};
use conformance::refusals::{assert_number, other_widths};
use conformance::samples::{random_permutation, Random};
use conformance::WIDTHS;

/// Paper 01's case 9, which neither network alone realises.
const CASE_9: [u8; 8] = [0, 4, 2, 3, 1, 5, 6, 7];

/// Checks that every routing is refused by this number.
fn assert_refused(number: u8, width: u32, permutation: &[u8]) {
    assert_number(&[ROUTE], number, width, permutation, ());
    assert_number(&ROUTE_ONE, number, width, permutation, ());
    assert_number(&[ROUTE_GROUPS], number, width, permutation, ());
}

/// Lists of this length: entries in order (cut to a byte), all alike, and a
/// permutation of each accepted width, cut or with zeros after it.
fn lists(length: usize) -> Vec<Vec<u8>> {
    let in_order: Vec<u8> = (0..length).map(|entry| entry as u8).collect();
    let mut lists = vec![
        in_order,
        vec![0; length],
        vec![7; length],
        vec![255; length],
    ];
    for width in WIDTHS {
        let mut list = reversal(width);
        list.resize(length, 0);
        lists.push(list);
    }
    lists
}

/// Permutations of this width; a network alone realises the first two.
fn permutations(width: u32) -> [Vec<u8>; 4] {
    let random = random_permutation(&mut Random::default(), width);
    [
        identity(width),
        reversal(width),
        index_reversal(width),
        random,
    ]
}

#[test]
fn every_other_width_is_refusal_1_whatever_the_rest() {
    for width in other_widths() {
        let lengths = [0, 1, 7, 8, 16, 32, 64, 65, 256];
        let its_own = (width <= 256).then_some(width as usize);
        for list in lengths.into_iter().chain(its_own).flat_map(lists) {
            assert_refused(1, width, &list);
        }
    }
}

#[test]
fn every_other_length_is_refusal_4_whatever_the_entries() {
    for width in WIDTHS {
        // Among them some that a narrower integer would cut to the width.
        let w = width as usize;
        let long = [256, 256 + w, 512 + w, 1 << 16, (1 << 16) + w, (1 << 20) + w];
        for length in (0..=130).chain(long).filter(|&length| length != w) {
            for list in lists(length) {
                assert_refused(4, width, &list);
            }
        }
    }
}

/// The memory after a short permutation would complete it.
#[test]
fn short_parts_of_a_permutation_are_refusal_4() {
    for width in WIDTHS {
        for permutation in permutations(width) {
            for length in 0..permutation.len() {
                assert_refused(4, width, &permutation[..length]);
            }
        }
    }
}

#[test]
fn each_repeated_entry_is_refusal_5() {
    for width in WIDTHS {
        for permutation in permutations(width) {
            for place in 0..permutation.len() {
                for entry in (0..width as u8).filter(|&entry| entry != permutation[place]) {
                    let mut repeated = permutation.clone();
                    repeated[place] = entry;
                    assert_refused(5, width, &repeated);
                }
            }
        }
    }
}

#[test]
fn each_entry_at_or_above_the_width_is_refusal_5() {
    for width in WIDTHS {
        for permutation in permutations(width) {
            for place in 0..permutation.len() {
                for entry in width..=255 {
                    let mut beyond = permutation.clone();
                    beyond[place] = entry as u8;
                    assert_refused(5, width, &beyond);
                }
            }
        }
    }
}

#[test]
fn lists_of_one_entry_only_are_refusal_5() {
    for width in WIDTHS {
        for entry in 0..=255 {
            assert_refused(5, width, &vec![entry; width as usize]);
        }
    }
}

/// A network can swap two bits and pass all others if one of its switches joins
/// them.
#[test]
fn a_swap_of_two_bits_is_refusal_6_exactly_if_no_switch_joins_them() {
    for width in WIDTHS {
        for one in 0..width {
            for other in 0..one {
                let swapped = swap(width, one, other);
                let joined = (one ^ other).is_power_of_two();
                assert_number(&ROUTE_ONE, if joined { 0 } else { 6 }, width, &swapped, ());
                assert_number(&[ROUTE], 0, width, &swapped, ());
            }
        }
    }
}

/// The table's own example, "0,0,2,3,4,5,6,7", and "case 9".
#[test]
fn examples_of_the_table_of_refusals() {
    assert_refused(5, 8, &[0, 0, 2, 3, 4, 5, 6, 7]);
    assert_number(&ROUTE_ONE, 6, 8, &CASE_9, ());
    assert_number(&[ROUTE], 0, 8, &CASE_9, ());
    assert_number(&[ROUTE_GROUPS], 0, 8, &CASE_9, ());
}

/// Each number with every higher one.
#[test]
fn the_lowest_number_wins() {
    let repeated = [0, 4, 2, 3, 1, 5, 6, 6];
    let beyond = [0, 4, 2, 3, 1, 5, 6, 8];
    assert_refused(1, 12, &CASE_9);
    assert_refused(1, 12, &CASE_9[..5]);
    for damaged in [repeated, beyond] {
        assert_refused(1, 12, &damaged);
        assert_refused(1, 12, &[&damaged[..], &[8, 9, 10, 11]].concat());
        assert_refused(4, 8, &damaged[1..]);
        assert_refused(4, 16, &damaged);
        assert_refused(5, 8, &damaged);
    }
    assert_refused(1, 0, &[]);
    assert_refused(4, 8, &[]);
}
