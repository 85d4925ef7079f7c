//! Demand 3: "any other settings that do so come later, read column by column
//! in the direction of travel, rightmost switch first, pass before swap."

use conformance::call::{route, Call, BUTTERFLY, INVERSE};
use conformance::controls::{stages, Controls};
use conformance::permutations::{all_of_width_8, product, realised};
use conformance::samples::{for_each_permutation, Random};
use conformance::WIDTHS;
use model::routing::{
    first_stage_by_loops, first_stage_by_search, stages_by, valid_stage, Routed, Stage,
};

/// Of the 4,096 controls of width 8, the one with this number in the order of
/// comparison: its digits in base two, the leading one first, are the switches
/// from the first stage's switch 0 on, and 0 is pass.
fn controls_of_width_8(number: u32) -> Controls {
    let mut controls = Controls::default();
    for switch in 0..12 {
        let pass = !number >> (11 - switch) & 1;
        controls[switch / 4] |= pass << (switch % 4);
    }
    controls
}

/// The permutations of all controls of width 8, in the order of comparison.
fn permutations_by(network: Call<Controls>) -> Vec<Vec<u8>> {
    let numbers = 0..1 << 12;
    let controls = numbers.map(controls_of_width_8);
    let permutations =
        controls.map(|controls| realised(8, |word| network.result(8, controls, word)));
    permutations.collect()
}

/// The definition itself: among all 2^24 sets, in the order of comparison, the
/// first to realise a permutation is its answer.
#[test]
fn of_all_sets_of_width_8() {
    let (butterflies, inverses) = (permutations_by(BUTTERFLY), permutations_by(INVERSE));
    let mut seen = vec![false; 1 << 24];
    let mut count = 0;
    for (one, butterfly) in (0..).zip(&butterflies) {
        for (then, inverse) in (0..).zip(&inverses) {
            let entries = inverse.iter().map(|&bit| butterfly[usize::from(bit)]);
            let key = entries.fold(0, |key, bit| key << 3 | usize::from(bit));
            if !seen[key] {
                seen[key] = true;
                count += 1;
                let first = Routed {
                    butterfly: controls_of_width_8(one),
                    inverse: controls_of_width_8(then),
                };
                assert_eq!(route(8, &product(butterfly, inverse)), first);
            }
        }
    }
    assert_eq!(count, 40_320, "every permutation is realised");
}

/// Controls made from first stages that are chosen so.
fn routed_by(choose: &mut dyn FnMut(&[usize]) -> Stage, permutation: &[u8]) -> Routed {
    let permutation: Vec<usize> = permutation.iter().map(|&bit| bit.into()).collect();
    Routed::of(&stages_by(choose, &permutation))
}

/// The search through all that every block's first stage can be, and the loops,
/// lead to the library's answer.
#[test]
fn by_search_and_by_loops() {
    let check = |width, permutation: &[u8]| {
        let routed = route(width, permutation);
        assert_eq!(routed_by(&mut first_stage_by_search, permutation), routed);
        assert_eq!(routed_by(&mut first_stage_by_loops, permutation), routed);
    };
    all_of_width_8().for_each(|permutation| check(8, &permutation));
    for (width, rounds) in [(16, 50), (32, 3)] {
        for_each_permutation(width, rounds, |permutation, _| check(width, permutation));
    }
}

/// Whether each switch passes, in the order of comparison.
fn switches(width: u32, routed: Routed) -> Vec<bool> {
    let used = stages(width);
    let in_order = [&routed.butterfly[..used], &routed.inverse[..used]].concat();
    let passes = |stage| (0..width / 2).map(move |switch| stage >> switch & 1 == 1);
    in_order.into_iter().flat_map(passes).collect()
}

#[test]
fn others_that_realise_a_permutation_come_later() {
    let mut random = Random::default();
    let mut pass_or_swap = || random.below(2) == 0;
    let mut any_valid = |permutation: &[usize]| valid_stage(&mut pass_or_swap, permutation);
    for width in WIDTHS {
        let mut later = 0;
        let count = for_each_permutation(width, 50, |permutation, _| {
            let first = route(width, permutation);
            let other = routed_by(&mut any_valid, permutation);
            let through_both = |word| {
                let half_way = BUTTERFLY.result(width, other.butterfly, word);
                INVERSE.result(width, other.inverse, half_way)
            };
            assert_eq!(realised(width, through_both), permutation);
            if other != first {
                // Pass is true, which is the greater.
                assert!(switches(width, first) > switches(width, other));
                later += 1;
            }
        });
        assert!(later > count * 9 / 10);
    }
}
