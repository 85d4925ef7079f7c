//! What the header says of prepared networks: library, wrapper and model agree,
//! and each is the network that it was made of.

use conformance::call::{Call, NETWORKS, PREPARE, PREPARE_BUTTERFLY, PREPARE_INVERSE};
use conformance::controls::{all_of_width_8, pass_all, reversed, stages, Controls};
use conformance::prepared::{Passage, PASSAGES};
use conformance::samples::{for_each_controls, for_each_swaps, Random};
use conformance::{low_ones, WIDTHS};
use model::prepared::{Swaps, DISTANCES};
use std::iter::{self, zip};

/// Each prepared network with the network itself.
fn both() -> impl Iterator<Item = (Passage, Call<Controls>)> {
    zip(PASSAGES, NETWORKS)
}

/// Checks that both prepared networks answer as the networks do.
fn assert_same(width: u32, controls: Controls, words: impl Iterator<Item = u64> + Clone) {
    for (passage, network) in both() {
        let prepared = passage.prepared(width, controls);
        for word in words.clone() {
            assert_eq!(prepared(word), network.result(width, controls, word));
        }
    }
}

/// The lower bits of all pairs at distance d.
fn lower_bits(d: usize) -> u64 {
    let lower = (0..64).filter(|p| p % (2 * d) < d);
    lower.map(|p| 1 << p).sum()
}

#[test]
fn every_fifth_of_all_controls_and_all_words_of_width_8() {
    for controls in all_of_width_8().step_by(5) {
        assert_same(8, controls, 0..=0xFF);
    }
}

#[test]
fn samples_of_every_width() {
    for width in WIDTHS {
        let count = for_each_controls(width, 300, |controls, word| {
            assert_same(width, controls, iter::once(word))
        });
        assert!(count >= 30_000);
    }
}

#[test]
fn any_six_words() {
    let count = for_each_swaps(1_000, |swaps, word| {
        for passage in PASSAGES {
            passage.check(swaps, word);
        }
    });
    assert!(count >= 100_000);
}

/// "Of any other word the bits below w go likewise." The others stay at bit w and
/// above, which the header does not say.
#[test]
fn ones_above_the_width_stay_there_and_change_nothing_below() {
    let mut random = Random::default();
    for width in WIDTHS {
        let below = low_ones(width);
        for_each_controls(width, 100, |controls, word| {
            let above = random.word() & !below;
            for (passage, network) in both() {
                let carried = passage.prepared(width, controls)(word | above);
                assert_eq!(carried & below, network.result(width, controls, word));
                assert_eq!((carried & !below).count_ones(), above.count_ones());
            }
        });
    }
}

/// Checks that of the pairs below the width only this one is marked: that of the
/// switch at distance d.
fn assert_marks(swaps: Swaps, width: u32, d: u32, switch: u32) {
    let (j, t) = (switch / d, switch % d);
    let lower = 1 << (2 * j * d + t);
    for (swaps, distance) in zip(swaps, DISTANCES) {
        let marked = if distance == d as usize { lower } else { 0 };
        assert_eq!(swaps & low_ones(width), marked);
    }
}

/// "swaps[i] is the stage of distance d = 32 >> i, the widest first, with ones
/// at the lower bits of the pairs that swap."
#[test]
fn a_single_zero_marks_the_lower_bit_of_its_switch() {
    for width in WIDTHS {
        for stage in 0..stages(width) {
            for switch in 0..width / 2 {
                let mut controls = pass_all(width);
                controls[stage] ^= 1 << switch;
                let distances = [width >> (stage + 1), 1 << stage];
                for (call, d) in zip(PREPARE, distances) {
                    assert_marks(call.result(width, controls, ()), width, d, switch);
                }
            }
        }
    }
}

/// "At distances w and above it is zero. At the others every pair at bit w and
/// above is marked too".
#[test]
fn marks_beyond_the_width() {
    for width in WIDTHS {
        for_each_controls(width, 100, |controls, _| {
            for call in PREPARE {
                let swaps = call.result(width, controls, ());
                for (swaps, d) in zip(swaps, DISTANCES) {
                    let is_stage = d < width as usize;
                    let lower = if is_stage { lower_bits(d) } else { 0 };
                    assert_eq!(swaps & !low_ones(width), lower & !low_ones(width));
                    assert_eq!(swaps & !lower, 0);
                }
            }
        });
    }
}

#[test]
fn both_networks_have_the_same_swaps_on_reversed_stages_and_undo_each_other() {
    for width in WIDTHS {
        for_each_controls(width, 100, |controls, word| {
            let back = reversed(width, controls);
            let swaps = PREPARE_BUTTERFLY.result(width, controls, ());
            assert_eq!(PREPARE_INVERSE.result(width, back, ()), swaps);
            for (there, again) in [(0, 1), (1, 0)] {
                let carried = PASSAGES[there].check(swaps, !word);
                assert_eq!(PASSAGES[again].check(swaps, carried), !word);
            }
        });
    }
}

/// A single mark exchanges its bit with the one d above, a lower bit or not;
/// where none is above, "x ^ t ^ (t << d)" clears it.
#[test]
fn a_single_mark_exchanges_two_bits_or_clears_one() {
    for (i, d) in DISTANCES.into_iter().enumerate() {
        for p in 0..64 {
            let mut swaps = [0; 6];
            swaps[i] = 1 << p;
            for bit in 0..64 {
                let result = match bit {
                    _ if bit == p && p + d > 63 => 0,
                    _ if bit == p => 1 << (p + d),
                    _ if bit == p + d => 1 << p,
                    _ => 1 << bit,
                };
                for passage in PASSAGES {
                    assert_eq!(passage.check(swaps, 1 << bit), result);
                }
            }
        }
    }
}

/// The zeros of a refused preparation pass every bit.
#[test]
fn no_marks_give_the_word_back() {
    for_each_swaps(10, |_, word| {
        for passage in PASSAGES {
            assert_eq!(passage.check([0; 6], word), word);
        }
    });
}
