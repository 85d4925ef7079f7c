//! Compared controls: the verdict is the model's, and of both networks that of the first
//! controls too.

mod support;

use conformance::call::{sources, Call, BUTTERFLY, INVERSE, NETWORKS};
use conformance::controls::{pass_all, stages, turned_inside, Controls};
use conformance::samples::{any_controls, Random};
use conformance::{low_ones, WIDTHS};
use std::iter::zip;
use support::{hex_list, prints, run, Outcome};

/// The networks whose controls are compared, and the options that say so.
struct Compared {
    options: &'static [&'static str],
    networks: &'static [Call<Controls>],
}

const ALONE: [Compared; 2] = [
    Compared {
        options: &["--butterfly"],
        networks: &[BUTTERFLY],
    },
    Compared {
        options: &["--inverse"],
        networks: &[INVERSE],
    },
];

const BOTH: Compared = Compared {
    options: &[],
    networks: &NETWORKS,
};

/// A set as it is given.
fn given(width: u32, set: &[Controls]) -> String {
    let parts = set.iter().map(|controls| {
        let used = controls[..stages(width)].iter().copied();
        hex_list(&Vec::from_iter(used.map(u64::from)))
    });
    Vec::from_iter(parts).join("/")
}

impl Compared {
    /// Whether the sets are alike, once what is printed has been asserted.
    fn alike(&self, width: u32, first: &[Controls], second: &[Controls]) -> bool {
        let [one, other] = [first, second].map(|set| given(width, set));
        let args = ["compare", &width.to_string(), &one, &other];
        let outcome = run(&[&args, self.options].concat());
        assert_eq!(outcome, self.expected(width, first, second), "{args:?}");
        outcome.status == 0
    }

    fn expected(&self, width: u32, first: &[Controls], second: &[Controls]) -> Outcome {
        let [one, other] = [first, second].map(|set| sources(self.networks, width, set));
        let difference = self.difference(width, first, second);
        let mut taken = zip(0.., zip(one, other));
        let (status, output) = match taken.find(|(_, (one, other))| one != other) {
            None => (0, format!("alike\n{difference}\n")),
            Some((place, (one, other))) => {
                let takes =
                    format!("place {place} takes bit {one} by FIRST, bit {other} by SECOND");
                (4, format!("not alike\n{difference}\n{takes}\n"))
            }
        };
        let error = String::new();
        Outcome {
            status,
            output,
            error,
        }
    }

    /// The first switch where the sets differ.
    fn difference(&self, width: u32, first: &[Controls], second: &[Controls]) -> String {
        for (network, (first, second)) in zip(self.networks, zip(first, second)) {
            for stage in 0..stages(width) {
                for switch in 0..width / 2 {
                    let passes = [first, second].map(|set| set[stage] >> switch & 1 == 1);
                    let states = match passes {
                        [true, false] => "FIRST passes, SECOND swaps",
                        [false, true] => "FIRST swaps, SECOND passes",
                        _ => continue,
                    };
                    let (name, stage) = (network.name, stage + 1);
                    return format!(
                        "first difference: {name} stage {stage}, switch {switch}: {states}"
                    );
                }
            }
        }
        "equal sets".to_string()
    }
}

/// The set with one switch the other way.
fn switched<const N: usize>(
    random: &mut Random,
    width: u32,
    mut set: [Controls; N],
) -> [Controls; N] {
    let stage = random.below(stages(width) as u32) as usize;
    set[random.below(N as u32) as usize][stage] ^= 1 << random.below(width / 2);
    set
}

/// Any set of so many networks.
fn any_set<const N: usize>(random: &mut Random, width: u32) -> [Controls; N] {
    [(); N].map(|()| any_controls(random, width))
}

#[test]
fn sets_of_one_network_are_alike_exactly_if_they_are_equal() {
    let mut random = Random::default();
    for compared in ALONE {
        for width in WIDTHS {
            for _ in 0..10 {
                let set: [Controls; 1] = any_set(&mut random, width);
                let single = switched(&mut random, width, set);
                for other in [set, single, any_set(&mut random, width)] {
                    let alike = compared.alike(width, &set, &other);
                    assert_eq!(alike, other == set, "{set:x?} {other:x?}");
                }
            }
        }
    }
}

#[test]
fn sets_of_both_networks_are_alike_exactly_if_their_first_controls_are_equal() {
    let mut random = Random::default();
    for width in WIDTHS {
        let first_controls = |set: [Controls; 2]| {
            let permutation = sources(&NETWORKS, width, &set);
            tigbayon::route(width, &permutation).unwrap()
        };
        for _ in 0..10 {
            let set = any_set(&mut random, width);
            let first = first_controls(set);
            let inner = random.word() as u32 & low_ones(width / 2) as u32;
            let others = [
                set,
                [first.butterfly.stages, first.inverse.stages],
                turned_inside(width, set, inner, inner),
                switched(&mut random, width, set),
                any_set(&mut random, width),
            ];
            for other in others {
                let alike = BOTH.alike(width, &set, &other);
                assert_eq!(alike, first_controls(other) == first, "{set:x?} {other:x?}");
            }
        }
    }
}

/// Of any set, and the other way round too.
#[test]
fn all_inner_switches_the_other_way_are_alike_though_different() {
    let mut random = Random::default();
    for width in WIDTHS {
        let sets = [
            [pass_all(width); 2],
            [[0; 6]; 2],
            any_set(&mut random, width),
        ];
        for set in sets {
            let all = low_ones(width / 2) as u32;
            let other = turned_inside(width, set, all, all);
            assert_ne!(other, set);
            assert!(BOTH.alike(width, &set, &other));
            assert!(BOTH.alike(width, &other, &set));
        }
    }
}

/// The first and the last switch of every stage, where nothing else differs.
#[test]
fn the_switch_that_differs_is_named() {
    for width in WIDTHS {
        let set = pass_all(width);
        for stage in 0..stages(width) {
            for switch in [0, width / 2 - 1] {
                let mut other = set;
                other[stage] ^= 1 << switch;
                assert!(!BOTH.alike(width, &[set, set], &[other, set]));
                assert!(!BOTH.alike(width, &[set, other], &[set, set]));
                for alone in ALONE {
                    assert!(!alone.alike(width, &[other], &[set]));
                }
            }
        }
    }
}

#[test]
fn the_first_of_many_differences_is_named() {
    let args = ["compare", "8", "F,D,F/F,F,F", "F,7,0/0,0,0"];
    let lines = [
        "not alike",
        "first difference: butterfly stage 2, switch 1: FIRST swaps, SECOND passes",
        "place 0 takes bit 0 by FIRST, bit 6 by SECOND",
    ];
    let outcome = run(&args);
    assert_eq!((outcome.status, outcome.error.as_str()), (4, ""));
    assert_eq!(Vec::from_iter(outcome.output.lines()), lines);
}

/// Missing stages are zero, and all are where none is given.
#[test]
fn ways_to_give_a_set() {
    let equal = "alike\nequal sets\n";
    for [first, second] in [["0", "0,0,0"], ["", "0 0 0 0 0 0"], ["0xd,F", "D,0xf,0"]] {
        for network in ["--butterfly", "--inverse"] {
            assert_eq!(prints(&["compare", "8", first, second, network]), equal);
            assert_eq!(prints(&["compare", network, "8", first, second]), equal);
        }
    }
    for [first, second] in [
        ["0/0", "/"],
        ["F/0", "0xF,0,0/"],
        ["/0,d", "0x0/0 D 0"],
        ["1,2,3/4,5,6", "1 2 3 / 4 5 6"],
    ] {
        assert_eq!(prints(&["compare", "8", first, second]), equal);
    }
}
