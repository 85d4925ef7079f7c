//! Request 07 of paper 02: "For one network they want it guaranteed: at one width, two
//! accepted settings move every word alike only if they are equal. For both networks in
//! a row this fails, so there the finder's first settings are the ones to compare."

use conformance::call::{route, sources, through, Call, NETWORKS, ROUTE, ROUTE_ONE};
use conformance::controls::{self, pass_all, stages, turned_inside, Controls};
use conformance::permutations::{self, identity, realised, reversal};
use conformance::samples::{any_controls, for_each_controls, for_each_permutation, Random};
use conformance::{low_ones, WIDTHS};
use model::routing::Routed;
use std::collections::{HashMap, HashSet};
use std::iter::zip;
use std::slice::from_ref;

/// Controls of the butterfly, and then of the inverse.
type Both = [Controls; 2];

/// The first controls of a permutation, which must be accepted.
fn first_controls(width: u32, permutation: &[u8]) -> Both {
    let Routed { butterfly, inverse } = route(width, permutation);
    [butterfly, inverse]
}

/// The permutation that these controls of one network realise, once routing it has given
/// them back.
fn routed_back(
    network: &Call<Controls>,
    routing: &Call<[u8], Controls, ()>,
    width: u32,
    controls: Controls,
) -> Vec<u8> {
    let permutation = sources(from_ref(network), width, &[controls]);
    assert_eq!(routing.result(width, &permutation, ()), controls);
    permutation
}

#[test]
fn all_sets_of_one_network_of_width_8() {
    for (network, routing) in zip(NETWORKS, ROUTE_ONE) {
        let back = |controls| routed_back(&network, &routing, 8, controls);
        let permutations: HashSet<Vec<u8>> = controls::all_of_width_8().map(back).collect();
        assert_eq!(permutations.len(), 1 << 12, "{}", network.name);
    }
}

#[test]
fn samples_of_one_network_of_widths_16_32_64() {
    for (network, routing) in zip(NETWORKS, ROUTE_ONE) {
        for width in [16, 32, 64] {
            for_each_controls(width, 50, |controls, _| {
                routed_back(&network, &routing, width, controls);
            });
        }
    }
}

/// Every set that differs from this one in one switch.
fn switched(width: u32, controls: Controls) -> Vec<Controls> {
    let mut sets = Vec::new();
    for stage in 0..stages(width) {
        for switch in 0..width / 2 {
            let mut other = controls;
            other[stage] ^= 1 << switch;
            sets.push(other);
        }
    }
    sets
}

#[test]
fn every_switch_of_one_network_changes_the_permutation() {
    for network in NETWORKS {
        for width in WIDTHS {
            let permutation =
                |controls| realised(width, |word| network.result(width, controls, word));
            for_each_controls(width, 1, |controls, _| {
                let moved = permutation(controls);
                for other in switched(width, controls) {
                    assert_ne!(permutation(other), moved, "{} {other:x?}", network.name);
                }
            });
        }
    }
}

#[test]
fn different_sets_of_both_networks_may_move_every_word_alike() {
    let one = [pass_all(8); 2];
    let other = [[0xF, 0xF, 0x0, 0, 0, 0], [0x0, 0xF, 0xF, 0, 0, 0]];
    assert_eq!(turned_inside(8, one, 0xF, 0xF), other);
    for word in 0..=0xFF {
        let [carried, alike] = [one, other].map(|set| through(&NETWORKS, 8, &set, word));
        assert_eq!((carried, alike), (word, word));
    }
    let permutation = sources(&NETWORKS, 8, &other);
    assert_eq!(permutation, identity(8));
    assert_eq!(first_controls(8, &permutation), one);
}

/// The permutation of a set of both networks, and its first controls.
fn told(width: u32, set: Both) -> (Vec<u8>, Both) {
    let permutation = sources(&NETWORKS, width, &set);
    let first = first_controls(width, &permutation);
    (permutation, first)
}

/// Any controls of both networks.
fn any_both(random: &mut Random, width: u32) -> Both {
    [(); 2].map(|()| any_controls(random, width))
}

#[test]
fn all_inner_stages_of_width_8() {
    let mut random = Random::default();
    for _ in 0..20 {
        let set = any_both(&mut random, 8);
        let family =
            (0..1 << 8).map(|switches| turned_inside(8, set, switches & 0xF, switches >> 4));
        let family: Vec<(Vec<u8>, Both)> = family.map(|set| told(8, set)).collect();
        for (one, first) in &family {
            let alike = family.iter().filter(|(other, _)| other == one);
            assert_eq!(alike.count(), 16);
            for (other, others_first) in &family {
                assert_eq!(other == one, others_first == first);
            }
        }
    }
}

#[test]
fn sets_of_both_networks_are_alike_exactly_if_their_first_controls_are_equal() {
    let mut random = Random::default();
    for width in WIDTHS {
        let mut different = 0;
        for _ in 0..100 {
            let set = any_both(&mut random, width);
            let (permutation, first) = told(width, set);
            let inner = random.word() as u32 & low_ones(width / 2) as u32;
            let single = 1 << random.below(width / 2);
            for (other, known) in [
                (first, Some(true)),
                (turned_inside(width, set, inner, inner), Some(true)),
                (turned_inside(width, set, single, 0), Some(false)),
                (any_both(&mut random, width), None),
            ] {
                let (others_permutation, others_first) = told(width, other);
                let alike = others_permutation == permutation;
                assert_eq!(others_first == first, alike, "{set:x?} {other:x?}");
                assert_eq!(known.unwrap_or(alike), alike, "{set:x?} {other:x?}");
                different += u32::from(alike && other != set);
            }
        }
        assert!(different > 150, "{different} pairs alike though different");
    }
}

#[test]
fn first_controls_of_all_permutations_of_width_8_differ() {
    let permutations = permutations::all_of_width_8();
    let firsts: HashSet<Both> = permutations
        .map(|permutation| first_controls(8, &permutation))
        .collect();
    assert_eq!(firsts.len(), 40_320);
    assert!(!firsts.contains(&[[0; 6]; 2]), "what refused lists answer");
}

#[test]
fn first_controls_of_samples_differ_where_the_permutations_do() {
    for width in [16, 32, 64] {
        let mut permutations = HashMap::new();
        for_each_permutation(width, 30, |permutation, _| {
            let first = first_controls(width, permutation);
            let known = permutations.entry(first).or_insert(permutation.to_vec());
            assert_eq!(known, permutation);
        });
        assert!(permutations.len() > 500);
    }
}

/// So their answers tell nothing; those of one network are even the controls of the
/// reversal, and only the refusal tells them from it.
#[test]
fn refused_lists_all_answer_zeros() {
    for width in WIDTHS {
        let (mut repeated, mut beyond) = (identity(width), identity(width));
        repeated[0] = 1;
        beyond[0] = width as u8;
        let short = identity(width - 1);
        for (list, number) in [(repeated, 5), (beyond, 5), (short, 4)] {
            let answer = ROUTE.check(width, &list, ());
            assert_eq!((answer.refusal, answer.result), (number, Routed::default()));
            for routing in ROUTE_ONE {
                let answer = routing.check(width, &list, ());
                assert_eq!((answer.refusal, answer.result), (number, [0; 6]));
            }
        }
        for routing in ROUTE_ONE {
            assert_eq!(routing.result(width, &reversal(width), ()), [0; 6]);
        }
    }
}
