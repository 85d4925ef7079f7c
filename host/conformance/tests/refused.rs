//! Damaged inputs get the lowest number that applies, and zeros for the rest.

use conformance::call::{DECODE, EXCHANGE, MASK_CALLS, NETWORKS, PAIR_CALLS, PREPARE};
use conformance::controls::{pass_all, stages, Controls};
use conformance::refusals::{assert_number, other_sizes, other_widths};
use conformance::{low_ones, SIZES, WIDTHS};
use model::gather::Gathered;

/// Words and masks below, at and above each accepted width.
const WORDS: [u64; 14] = [
    0,
    1,
    0xAD,
    0xFF,
    0x100,
    0xFFFF,
    0x1_0000,
    0xFFFF_FFFF,
    0x1_0000_0000,
    1 << 63,
    u64::MAX,
    u64::MAX << 8,
    u64::MAX << 16,
    u64::MAX << 32,
];

/// Controls that are used at every width, or only from some width on.
const CONTROLS: [Controls; 9] = [
    [0; 6],
    [0xF, 0xF, 0xF, 0, 0, 0],
    [0xFF, 0xFF, 0xFF, 0xFF, 0, 0],
    [0xFFFF, 0xFFFF, 0xFFFF, 0xFFFF, 0xFFFF, 0],
    [u32::MAX; 6],
    [0x10, 0, 0, 0, 0, 0],
    [0, 0, 0, 1, 0, 0],
    [0, 1 << 31, 0, 0, 0, 0],
    [0, 0, 0, 0, 0, 1 << 31],
];

/// 2 if the word has a one at bit w or above, else the other number.
fn above_or(width: u32, word: u64, other: u8) -> u8 {
    if word & !low_ones(width) != 0 {
        2
    } else {
        other
    }
}

/// Every stage with every bit of it.
fn control_bits() -> impl Iterator<Item = (usize, u32)> {
    (0..6).flat_map(|stage| (0..32).map(move |bit| (stage, bit)))
}

/// "a column uses w/2 bits", and there are L stages.
fn is_used(width: u32, stage: usize, bit: u32) -> bool {
    stage < stages(width) && bit < width / 2
}

/// 3 if the controls have a one in an unused bit or stage, else 0.
fn unused(width: u32, controls: Controls) -> u8 {
    let mut ones = control_bits().filter(|&(stage, bit)| controls[stage] >> bit & 1 == 1);
    if ones.any(|(stage, bit)| !is_used(width, stage, bit)) {
        3
    } else {
        0
    }
}

#[test]
fn every_other_width_is_refusal_1_whatever_the_rest() {
    for width in other_widths() {
        for controls in CONTROLS {
            assert_number(&PREPARE, 1, width, controls, ());
        }
        for word in WORDS {
            assert_number(&[DECODE], 1, width, word, ());
            for mask in WORDS {
                assert_number(&MASK_CALLS, 1, width, mask, word);
            }
            for controls in CONTROLS {
                assert_number(&NETWORKS, 1, width, controls, word);
            }
        }
    }
}

#[test]
fn accepted_widths_are_refused_by_range_and_then_by_unused_controls() {
    for width in WIDTHS {
        for controls in CONTROLS {
            assert_number(&PREPARE, unused(width, controls), width, controls, ());
        }
        for word in WORDS {
            assert_number(&[DECODE], above_or(width, word, 0), width, word, ());
            for mask in WORDS {
                let number = above_or(width, mask | word, 0);
                assert_number(&MASK_CALLS, number, width, mask, word);
            }
            for controls in CONTROLS {
                let number = above_or(width, word, unused(width, controls));
                assert_number(&NETWORKS, number, width, controls, word);
            }
        }
    }
}

#[test]
fn each_single_bit_above_the_width_is_refusal_2() {
    for width in WIDTHS {
        for p in width..64 {
            let beyond = 1 << p;
            for inside in [0, 1, 0xAD, low_ones(width)] {
                let word = beyond | inside;
                assert_number(&MASK_CALLS, 2, width, inside, beyond);
                assert_number(&MASK_CALLS, 2, width, beyond, inside);
                assert_number(&MASK_CALLS, 2, width, inside, word);
                assert_number(&MASK_CALLS, 2, width, word, inside);
                assert_number(&MASK_CALLS, 2, width, word, word);
                assert_number(&[DECODE], 2, width, word, ());
                for controls in CONTROLS {
                    assert_number(&NETWORKS, 2, width, controls, word);
                }
            }
        }
    }
}

/// Checks that the calls are refused, and count and answer nothing.
fn assert_uncounted(width: u32, mask: u64, word: u64) {
    for call in MASK_CALLS {
        let answer = call.check(width, mask, word);
        let (count, word) = (0, 0);
        assert_ne!(answer.refusal, 0, "{} {width} {mask:x}", call.name);
        assert_eq!(answer.result, Gathered { count, word });
    }
}

/// Request 01 of paper 02: "A refused call shows 0", of a full mask too.
#[test]
fn no_marked_bits_are_counted_beside_a_refusal() {
    for width in other_widths() {
        assert_uncounted(width, u64::MAX, 0);
        assert_uncounted(width, low_ones(width.min(64)), 0);
    }
    for width in [8, 16, 32] {
        assert_uncounted(width, low_ones(width + 1), 0);
        assert_uncounted(width, u64::MAX, 0);
        assert_uncounted(width, low_ones(width), 1 << width);
    }
}

#[test]
fn each_single_bit_below_the_width_is_accepted() {
    for width in WIDTHS {
        for p in 0..width {
            assert_number(&MASK_CALLS, 0, width, 1 << p, low_ones(width));
            assert_number(&MASK_CALLS, 0, width, low_ones(width), 1 << p);
            assert_number(&NETWORKS, 0, width, pass_all(width), 1 << p);
            assert_number(&[DECODE], 0, width, 1 << p, ());
        }
    }
}

#[test]
fn each_single_control_bit_is_refusal_3_exactly_if_unused() {
    for width in WIDTHS {
        for (stage, bit) in control_bits() {
            let number = if is_used(width, stage, bit) { 0 } else { 3 };
            for others in [[0; 6], pass_all(width)] {
                let mut controls = others;
                controls[stage] |= 1 << bit;
                assert_number(&NETWORKS, number, width, controls, 0);
                assert_number(&NETWORKS, number, width, controls, low_ones(width));
                assert_number(&NETWORKS, 1, width + 1, controls, 0);
                assert_number(&PREPARE, number, width, controls, ());
                assert_number(&PREPARE, 1, width + 1, controls, ());
            }
        }
    }
}

#[test]
fn each_unused_stage_is_refusal_3_whatever_its_bits() {
    for width in WIDTHS {
        for stage in stages(width)..6 {
            for bits in [1, 0xF, 0x8000, 1 << 31, u32::MAX] {
                let mut controls = pass_all(width);
                controls[stage] = bits;
                assert_number(&NETWORKS, 3, width, controls, 0xAD);
                assert_number(&PREPARE, 3, width, controls, ());
            }
        }
    }
}

/// Request 05 of paper 02: "12, another subword size".
#[test]
fn every_other_size_is_refusal_12_whatever_the_words() {
    for size in other_sizes() {
        for first in WORDS {
            assert_number(&[EXCHANGE], 12, size, first, ());
            for second in WORDS {
                assert_number(&PAIR_CALLS, 12, size, first, second);
            }
        }
    }
}

/// Each size is of subwords of any word: no bit lies above it.
#[test]
fn no_word_is_refused_at_any_size() {
    for size in SIZES {
        for first in WORDS.into_iter().chain((0..64).map(|p| 1 << p)) {
            assert_number(&[EXCHANGE], 0, size, first, ());
            for second in WORDS {
                assert_number(&PAIR_CALLS, 0, size, first, second);
                assert_number(&PAIR_CALLS, 0, size, second, first);
            }
        }
    }
}

/// The table's own examples: "width 12", "width 8, word 0x100", and "width 8,
/// column 1 = 0x10".
#[test]
fn examples_of_the_table_of_refusals() {
    assert_number(&MASK_CALLS, 1, 12, 0xAD, 0xB6);
    assert_number(&MASK_CALLS, 2, 8, 0xAD, 0x100);
    assert_number(&NETWORKS, 3, 8, [0x10, 0, 0, 0, 0, 0], 0xB6);
    assert_number(&PREPARE, 3, 8, [0x10, 0, 0, 0, 0, 0], ());
}

/// Each number with every higher one.
#[test]
fn the_lowest_number_wins() {
    let unused = [0x10, 0, 0, 0, 0, 0];
    assert_number(&NETWORKS, 1, 12, unused, 0x1000);
    assert_number(&NETWORKS, 1, 12, unused, 0xB6);
    assert_number(&NETWORKS, 1, 12, [0; 6], 0x1000);
    assert_number(&NETWORKS, 2, 8, unused, 0x100);
    assert_number(&PREPARE, 1, 12, unused, ());
}
