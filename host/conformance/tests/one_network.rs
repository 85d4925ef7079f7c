//! Paper 01's "One network": "It gets the settings that realise it, or refusal
//! 6 exactly if there are none."

use conformance::call::{route, Call, NETWORKS, ROUTE_INVERSE, ROUTE_ONE};
use conformance::controls::{pass_all, reversed, Controls};
use conformance::permutations::{all_of_width_8, realised, undoing};
use conformance::samples::for_each_permutation;
use conformance::WIDTHS;
use model::permutation::permuted;
use std::iter::zip;

/// The checked controls of a permutation that must not be refused but by 6.
fn found(routing: &Call<[u8], Controls, ()>, width: u32, permutation: &[u8]) -> Option<Controls> {
    let answer = routing.check(width, permutation, ());
    assert!([0, 6].contains(&answer.refusal));
    (answer.refusal == 0).then_some(answer.result)
}

#[test]
fn every_permutation_of_width_8_on_every_word() {
    for (network, routing) in zip(NETWORKS, ROUTE_ONE) {
        let mut count = 0;
        for permutation in all_of_width_8() {
            let Some(controls) = found(&routing, 8, &permutation) else {
                continue;
            };
            count += 1;
            for word in 0..=0xFF {
                let result = network.result(8, controls, word);
                assert_eq!(result, permuted(&permutation, word));
            }
        }
        assert_eq!(count, 1 << 12, "{} has 12 switches", network.name);
    }
}

#[test]
fn samples_of_widths_16_32_64() {
    for width in [16, 32, 64] {
        for (network, routing) in zip(NETWORKS, ROUTE_ONE) {
            let mut found_some = 0;
            let count = for_each_permutation(width, 300, |permutation, word| {
                if let Some(controls) = found(&routing, width, permutation) {
                    found_some += 1;
                    let carry = |word| network.result(width, controls, word);
                    assert_eq!(realised(width, carry), permutation);
                    assert_eq!(carry(word), permuted(permutation, word));
                }
            });
            assert!((count / 10..count * 9 / 10).contains(&found_some));
        }
    }
}

/// Each network on reversed stages undoes the other.
#[test]
fn the_undoing_permutation_has_the_stages_reversed_in_the_other_network() {
    for width in WIDTHS {
        for_each_permutation(width, 50, |permutation, _| {
            let undoing = undoing(permutation);
            for (there, back) in zip(ROUTE_ONE, ROUTE_ONE.into_iter().rev()) {
                let controls = found(&there, width, permutation);
                let reversed = controls.map(|controls| reversed(width, controls));
                assert_eq!(found(&back, width, &undoing), reversed);
            }
        });
    }
}

/// No controls of both networks come before a butterfly at pass.
#[test]
fn what_the_inverse_alone_realises_is_routed_with_the_butterfly_at_pass() {
    for width in WIDTHS {
        for_each_permutation(width, 50, |permutation, _| {
            let routed = route(width, permutation);
            let at_pass = routed.butterfly == pass_all(width);
            let inverse = at_pass.then_some(routed.inverse);
            assert_eq!(found(&ROUTE_INVERSE, width, permutation), inverse);
        });
    }
}
