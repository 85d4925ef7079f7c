//! Both networks and preparing them, at width 64; the networks below it, too.

use crate::contest::Contest;
use crate::WIDTH;
use conformance::controls::{stages, Controls};
use conformance::low_ones;
use conformance::samples::Random;
use std::fmt::Debug;
use tigbayon::{tb_butterfly, tb_butterfly_prepared, tb_inverse, tb_inverse_prepared};
use tigbayon::{tb_prepare_butterfly, tb_prepare_inverse, TbCarried, TbPrepared};

/// The widths below that of the contests.
const NARROW: [u32; 3] = [8, 16, 32];

/// How many stages a network has.
pub const STAGES: usize = 6;

/// For distances 1, 2, 4, .., 32, the lower bit of every pair.
pub const PAIRS: [u64; STAGES] = [
    0x5555_5555_5555_5555,
    0x3333_3333_3333_3333,
    0x0F0F_0F0F_0F0F_0F0F,
    0x00FF_00FF_00FF_00FF,
    0x0000_FFFF_0000_FFFF,
    0x0000_0000_FFFF_FFFF,
];

/// One of both networks, as the library offers it.
pub type Network = extern "C" fn(u32, &Controls, u64) -> TbCarried;

/// The same, prepared.
pub type Prepare = extern "C" fn(u32, &Controls) -> TbPrepared;

/// A word sent through it then.
pub type Passage = extern "C" fn(&[u64; STAGES], u64) -> u64;

/// The peer that has nothing to do but the stages.
const SPREAD_BEFORE: &str = "delta swaps, masks spread before";

/// The butterfly beside delta swaps.
pub fn butterfly(name: &str) {
    network::<false>(name, tb_butterfly);
}

/// The inverse beside delta swaps.
pub fn inverse(name: &str) {
    network::<true>(name, tb_inverse);
}

/// Preparing the butterfly beside spreading its stages.
pub fn prepare_butterfly(name: &str) {
    prepare::<false>(name, tb_prepare_butterfly);
}

/// Preparing the inverse beside spreading its stages.
pub fn prepare_inverse(name: &str) {
    prepare::<true>(name, tb_prepare_inverse);
}

/// The butterfly, prepared before, beside delta swaps.
pub fn butterfly_prepared(name: &str) {
    prepared::<false>(name, tb_prepare_butterfly, tb_butterfly_prepared);
}

/// The inverse, prepared before, beside delta swaps.
pub fn inverse_prepared(name: &str) {
    prepared::<true>(name, tb_prepare_inverse, tb_inverse_prepared);
}

/// Random controls, also as masks of the pairs to swap, and a word.
struct Journey {
    controls: Controls,
    swaps: [u64; STAGES],
    word: u64,
}

impl Journey {
    /// Through a network of rising distances (the inverse) or falling ones.
    fn random<const RISING: bool>(random: &mut Random) -> Self {
        let (controls, word) = controls_and_word(random, WIDTH);
        Journey {
            controls,
            swaps: swaps_of::<RISING>(&controls),
            word,
        }
    }

    fn by_delta_swaps<const RISING: bool>(&self) -> u64 {
        delta_swaps::<RISING>(&self.swaps, self.word)
    }
}

fn network<const RISING: bool>(name: &str, library: Network) {
    Contest::of(Journey::random::<RISING>, move |journey| {
        library(WIDTH, &journey.controls, journey.word).word
    })
    .peer(SPREAD_BEFORE, Journey::by_delta_swaps::<RISING>)
    .peer("delta swaps, spreading included", |journey| {
        let swaps = swaps_of::<RISING>(&journey.controls);
        delta_swaps::<RISING>(&swaps, journey.word)
    })
    .print(name);
    below_64(name, controls_and_word, move |width, (controls, word)| {
        library(width, controls, *word)
    });
}

fn prepare<const RISING: bool>(name: &str, library: Prepare) {
    Contest::of(
        |random| random_controls(random, WIDTH),
        move |controls| library(WIDTH, controls),
    )
    .peer("spreading six stages", |controls| TbPrepared {
        refusal: 0,
        swaps: swaps_of::<RISING>(controls),
    })
    .within(1.2)
    .print(name);
    below_64(name, random_controls, move |width, controls| {
        library(width, controls)
    });
}

/// The library's call at each narrower width beside the same at width 64, on
/// inputs of its own.
fn below_64<I: 'static, O: Debug + PartialEq>(
    name: &str,
    make: fn(&mut Random, u32) -> I,
    library: impl Fn(u32, &I) -> O + Copy + 'static,
) {
    for width in NARROW {
        Contest::of(
            |random| [width, WIDTH].map(|width| make(random, width)),
            move |[narrow, _]| library(width, narrow),
        )
        .beside("the library at width 64", move |[_, wide]| {
            library(WIDTH, wide)
        })
        .within(1.2)
        .print(&format!("{name} at {width}"));
    }
}

fn prepared<const RISING: bool>(name: &str, prepare: Prepare, library: Passage) {
    let journey = |random: &mut Random| {
        let journey = Journey::random::<RISING>(random);
        let prepared = prepare(WIDTH, &journey.controls);
        assert_eq!(prepared.swaps, journey.swaps, "the masks are the library's");
        journey
    };
    Contest::of(journey, move |journey| {
        library(&journey.swaps, journey.word)
    })
    .peer(SPREAD_BEFORE, Journey::by_delta_swaps::<RISING>)
    .within(1.1)
    .print(name);
}

/// Controls of a width, any of them alike.
pub fn random_controls(random: &mut Random, width: u32) -> Controls {
    let mut controls = Controls::default();
    for stage in &mut controls[..stages(width)] {
        *stage = (random.word() & low_ones(width / 2)) as u32;
    }
    controls
}

/// The same, and a word of the width.
pub fn controls_and_word(random: &mut Random, width: u32) -> (Controls, u64) {
    let word = random.word() & low_ones(width);
    (random_controls(random, width), word)
}

/// The base-two logarithm of a stage's distance.
pub fn log_distance<const RISING: bool>(stage: usize) -> usize {
    if RISING {
        stage
    } else {
        STAGES - 1 - stage
    }
}

/// For each distance 32, 16, .., 1, ones at the lower bit of every pair that its
/// stage swaps.
pub fn swaps_of<const RISING: bool>(stages: &[u32; STAGES]) -> [u64; STAGES] {
    let mut swaps = [0; STAGES];
    for (i, &stage) in stages.iter().enumerate() {
        let log = log_distance::<RISING>(i);
        swaps[STAGES - 1 - log] = spread(log, stage) ^ PAIRS[log];
    }
    swaps
}

/// The control bits of a stage, each at the lower bit of its pair.
fn spread(log: usize, stage: u32) -> u64 {
    let apart = (log..STAGES - 1).rev();
    apart.fold(stage.into(), |bits, log| {
        (bits | bits << (1 << log)) & PAIRS[log]
    })
}

/// Exchanges the marked pairs, stage by stage.
pub fn delta_swaps<const RISING: bool>(swaps: &[u64; STAGES], word: u64) -> u64 {
    (0..STAGES).fold(word, |word, i| {
        let log = log_distance::<RISING>(i);
        let distance = 1 << log;
        let differ = (word ^ word >> distance) & swaps[STAGES - 1 - log];
        word ^ differ ^ differ << distance
    })
}
