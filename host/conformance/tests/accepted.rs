//! Library, wrapper and model agree where a call is carried out.

use conformance::call::{check_all, decode, MASK_CALLS, NETWORKS};
use conformance::controls::all_of_width_8;
use conformance::samples::{for_each, for_each_controls, Random};
use conformance::{low_ones, WIDTHS};

#[test]
fn every_mask_and_word_of_width_8() {
    for mask in 0..=0xFF {
        for word in 0..=0xFF {
            check_all(&MASK_CALLS, 8, mask, word);
        }
    }
}

#[test]
fn every_mask_of_width_16_with_each_single_bit_and_a_random_word() {
    let mut random = Random::default();
    for mask in 0..=0xFFFF {
        for p in 0..16 {
            check_all(&MASK_CALLS, 16, mask, 1 << p);
        }
        check_all(&MASK_CALLS, 16, mask, random.word() & 0xFFFF);
    }
}

#[test]
fn a_million_samples_of_widths_16_32_64() {
    let sampled = |width| {
        for_each(width, 3_500, |mask, word| {
            check_all(&MASK_CALLS, width, mask, word)
        })
    };
    let count: u32 = [16, 32, 64].map(sampled).iter().sum();
    assert!(count >= 1_000_000);
}

#[test]
fn networks_on_all_controls_and_words_of_width_8() {
    for controls in all_of_width_8() {
        for word in 0..=0xFF {
            check_all(&NETWORKS, 8, controls, word);
        }
    }
}

#[test]
fn networks_on_samples_of_every_width() {
    let sampled = |width| {
        for_each_controls(width, 400, |controls, word| {
            check_all(&NETWORKS, width, controls, word)
        })
    };
    let count: u32 = WIDTHS.map(sampled).iter().sum();
    assert!(2 * count >= 300_000, "two networks each");
}

#[test]
fn decode_of_every_mask_of_widths_8_and_16() {
    for (width, masks) in [(8, 0..=0xFF), (16, 0..=0xFFFF)] {
        for mask in masks {
            decode(width, mask);
        }
    }
}

#[test]
fn decode_of_samples_of_widths_32_and_64() {
    for width in [32, 64] {
        let count = for_each(width, 1_000, |one, other| {
            decode(width, one ^ other);
        });
        assert!(count >= 100_000);
    }
}

#[test]
fn decode_of_every_value_of_every_byte_between_zeros_and_between_ones() {
    for width in [32, 64] {
        for place in (0..width).step_by(8) {
            for value in 0..=0xFF {
                let zeros = value << place;
                decode(width, zeros);
                decode(width, zeros | low_ones(width) & !(0xFF << place));
            }
        }
    }
}
