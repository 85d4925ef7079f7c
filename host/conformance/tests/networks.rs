//! What paper 01's "Columns" says of both networks.

use conformance::call::{Call, BUTTERFLY, INVERSE, NETWORKS};
use conformance::controls::{pass_all, reversed, stages, Controls};
use conformance::samples::{for_each, for_each_controls};
use conformance::WIDTHS;

/// Checks that on these controls the network swaps the bits that the switch at
/// this distance joins, and passes all others: "switch j×d + t (t below d)
/// joins lines 2×j×d + t and 2×j×d + t + d."
fn assert_swaps(network: Call<Controls>, width: u32, controls: Controls, d: u32, switch: u32) {
    let (j, t) = (switch / d, switch % d);
    let low = 2 * j * d + t;
    let high = 2 * j * d + t + d;
    for p in 0..width {
        let place = match p {
            _ if p == low => high,
            _ if p == high => low,
            _ => p,
        };
        assert_eq!(network.result(width, controls, 1 << p), 1 << place);
    }
}

/// "Column i (from 1) joins lines w/2^i apart"; "The inverse has distances 1,
/// 2, 4, .. up to w/2."
#[test]
fn a_single_zero_swaps_the_two_bits_of_its_switch() {
    for width in WIDTHS {
        for stage in 0..stages(width) {
            for switch in 0..width / 2 {
                let mut controls = pass_all(width);
                controls[stage] ^= 1 << switch;
                assert_swaps(BUTTERFLY, width, controls, width >> (stage + 1), switch);
                assert_swaps(INVERSE, width, controls, 1 << stage, switch);
            }
        }
    }
}

#[test]
fn all_at_pass_gives_the_word_back() {
    for width in WIDTHS {
        for_each(width, 10, |_, word| {
            for network in NETWORKS {
                assert_eq!(network.result(width, pass_all(width), word), word);
            }
        });
    }
}

/// "all zero when fresh", and "A fresh unit's kind 1 reverses the word."
#[test]
fn a_fresh_registers_controls_reverse_the_word() {
    for width in WIDTHS {
        for_each(width, 10, |_, word| {
            let reversed_word = word.reverse_bits() >> (64 - width);
            for network in NETWORKS {
                assert_eq!(network.result(width, [0; 6], word), reversed_word);
            }
        });
    }
}

#[test]
fn each_network_on_reversed_stages_undoes_the_other() {
    for width in WIDTHS {
        for_each_controls(width, 100, |controls, word| {
            let back = reversed(width, controls);
            for (there, again) in [(BUTTERFLY, INVERSE), (INVERSE, BUTTERFLY)] {
                let carried = there.result(width, controls, word);
                assert_eq!(again.result(width, back, carried), word);
            }
        });
    }
}
