//! The stack that each exported call uses, at its deepest over many inputs.
//! With `--nocapture` the bytes are printed.

use conformance::arbitrary::{any_bank, budget, byte, continued, frame, list, operation, register};
use conformance::arbitrary::{controls, cut, permutation, plane, size, widths, word};
use conformance::frame::Frame;
use conformance::packing::{clean_end, LONGEST};
use conformance::permutations::{one_loop, FIXED};
use conformance::pixels::{Plane, LONGEST_SHAPES};
use conformance::planes::Words;
use conformance::programs::{bank, program, waiting_bank};
use conformance::samples::{any_eight, any_swaps, random_permutation, random_words, Random};
use conformance::stack::bytes_used;
use conformance::unit::lent;
use conformance::WIDTHS;
use model::routing::valid_stage;
use std::hint::black_box;
use std::thread;
use tigbayon::{
    tb_acknowledge, tb_butterfly, tb_butterfly_prepared, tb_check, tb_continue, tb_decode,
    tb_despeckle, tb_drop, tb_enable, tb_exchange, tb_excheck, tb_frame, tb_from_planes, tb_gather,
    tb_group, tb_interrupt, tb_inverse, tb_inverse_prepared, tb_mix_left, tb_mix_right, tb_operate,
    tb_pack, tb_prepare_butterfly, tb_prepare_inverse, tb_read, tb_route, tb_route_butterfly,
    tb_route_groups, tb_route_inverse, tb_run, tb_scatter, tb_status, tb_tile_mirror_columns,
    tb_tile_mirror_rows, tb_tile_transpose, tb_tile_turn_left, tb_tile_turn_right, tb_to_planes,
    tb_unpack, tb_write, TbCarried, TbGathered, TbPacked, TbPlanes, TbPrepared,
};

/// No call may use as many bytes.
const LIMIT: usize = 16 * 1_024;

/// Nor may a run, continued or not: the operations left are not copied to the stack.
const LIMIT_OF_RUNS: usize = 2 * 1_024;

/// Nor may a frame: the four banks are not.
const LIMIT_OF_FRAMES: usize = 8 * 1_024;

/// How often each call is measured, on inputs of every sort each time.
const ROUNDS: u32 = 300;

/// The stack of the thread that measures a call, paint and all.
const STACK: usize = 1 << 20;

/// The deepest use so far, and where inputs come from.
#[derive(Default)]
struct Gauge {
    random: Random,
    deepest: usize,
}

impl Gauge {
    fn measure<A>(&mut self, mut call: impl FnMut() -> A) {
        let used = bytes_used(&mut || drop(black_box(call())));
        self.deepest = self.deepest.max(used);
    }
}

/// Measures a call once on each sort of input.
type Measure = fn(&mut Gauge);

const CALLS: [(&str, Measure); 41] = [
    ("(none)", |gauge| gauge.measure(|| ())),
    ("tb_gather", |gauge| masked(gauge, tb_gather)),
    ("tb_scatter", |gauge| masked(gauge, tb_scatter)),
    ("tb_group", |gauge| masked(gauge, tb_group)),
    ("tb_butterfly", |gauge| carried(gauge, tb_butterfly)),
    ("tb_inverse", |gauge| carried(gauge, tb_inverse)),
    ("tb_prepare_butterfly", |gauge| {
        prepared(gauge, tb_prepare_butterfly)
    }),
    ("tb_prepare_inverse", |gauge| {
        prepared(gauge, tb_prepare_inverse)
    }),
    ("tb_butterfly_prepared", |gauge| {
        passed(gauge, tb_butterfly_prepared)
    }),
    ("tb_inverse_prepared", |gauge| {
        passed(gauge, tb_inverse_prepared)
    }),
    ("tb_decode", |gauge| {
        let (handed, width) = widths(&mut gauge.random);
        let mask = word(&mut gauge.random, width);
        gauge.measure(|| tb_decode(handed, mask));
    }),
    ("tb_route", |gauge| routed(gauge, tb_route)),
    ("tb_route_butterfly", |gauge| {
        routed(gauge, tb_route_butterfly)
    }),
    ("tb_route_inverse", |gauge| routed(gauge, tb_route_inverse)),
    ("tb_route_groups", |gauge| routed(gauge, tb_route_groups)),
    ("tb_pack", |gauge| packed(gauge, tb_pack)),
    ("tb_unpack", |gauge| packed(gauge, tb_unpack)),
    ("tb_to_planes", |gauge| converted(gauge, tb_to_planes)),
    ("tb_from_planes", |gauge| converted(gauge, tb_from_planes)),
    ("tb_tile_transpose", |gauge| moved(gauge, tb_tile_transpose)),
    ("tb_tile_turn_left", |gauge| moved(gauge, tb_tile_turn_left)),
    ("tb_tile_turn_right", |gauge| {
        moved(gauge, tb_tile_turn_right)
    }),
    ("tb_tile_mirror_columns", |gauge| {
        moved(gauge, tb_tile_mirror_columns)
    }),
    ("tb_tile_mirror_rows", |gauge| {
        moved(gauge, tb_tile_mirror_rows)
    }),
    ("tb_check", |gauge| paired(gauge, tb_check)),
    ("tb_excheck", |gauge| paired(gauge, tb_excheck)),
    ("tb_mix_left", |gauge| paired(gauge, tb_mix_left)),
    ("tb_mix_right", |gauge| paired(gauge, tb_mix_right)),
    ("tb_exchange", |gauge| {
        let size = size(&mut gauge.random);
        let word = word(&mut gauge.random, 64);
        gauge.measure(|| tb_exchange(size, word));
    }),
    ("tb_despeckle", |gauge| {
        let random = &mut gauge.random;
        let shape = random.pick(&LONGEST_SHAPES);
        let longest = Plane::any(random, shape).words;
        let length = longest.len();
        for (plane, (rows, row_words), out_length) in [(longest, shape, length), plane(random)] {
            let mut out = vec![0; out_length];
            gauge.measure(|| tb_despeckle(&plane, rows, row_words, &mut out));
        }
    }),
    ("tb_operate", |gauge| {
        let [kind, r1, r2, r3] = operation(&mut gauge.random);
        let mut bank = lent(&any_bank(&mut gauge.random));
        gauge.measure(|| tb_operate(&mut bank, kind, r1, r2, r3));
    }),
    ("tb_run", ran),
    ("tb_continue", ran_on),
    ("tb_drop", |gauge| {
        let mut bank = lent(&any_bank(&mut gauge.random));
        gauge.measure(|| tb_drop(&mut bank));
    }),
    ("tb_frame", framed),
    ("tb_read", |gauge| {
        let bank = lent(&bank(&mut gauge.random));
        let number = register(&mut gauge.random);
        gauge.measure(|| tb_read(&bank, number));
    }),
    ("tb_write", |gauge| {
        let mut bank = lent(&bank(&mut gauge.random));
        let number = register(&mut gauge.random);
        gauge.measure(|| tb_write(&mut bank, number, !0));
    }),
    ("tb_status", |gauge| {
        let bank = lent(&bank(&mut gauge.random));
        gauge.measure(|| tb_status(&bank));
    }),
    ("tb_enable", |gauge| {
        let mut bank = lent(&bank(&mut gauge.random));
        let byte = byte(&mut gauge.random);
        gauge.measure(|| tb_enable(&mut bank, byte));
    }),
    ("tb_acknowledge", |gauge| {
        let mut bank = lent(&bank(&mut gauge.random));
        let byte = byte(&mut gauge.random);
        gauge.measure(|| tb_acknowledge(&mut bank, byte));
    }),
    ("tb_interrupt", |gauge| {
        let bank = lent(&bank(&mut gauge.random));
        gauge.measure(|| tb_interrupt(&bank));
    }),
];

fn masked(gauge: &mut Gauge, call: extern "C" fn(u32, u64, u64) -> TbGathered) {
    let (handed, width) = widths(&mut gauge.random);
    let [mask, word] = [(); 2].map(|()| word(&mut gauge.random, width));
    gauge.measure(|| call(handed, mask, word));
}

fn carried(gauge: &mut Gauge, call: extern "C" fn(u32, &[u32; 6], u64) -> TbCarried) {
    let (handed, width) = widths(&mut gauge.random);
    let controls = controls(&mut gauge.random, width);
    let word = word(&mut gauge.random, width);
    gauge.measure(|| call(handed, &controls, word));
}

fn prepared(gauge: &mut Gauge, call: extern "C" fn(u32, &[u32; 6]) -> TbPrepared) {
    let (handed, width) = widths(&mut gauge.random);
    let controls = controls(&mut gauge.random, width);
    gauge.measure(|| call(handed, &controls));
}

fn passed(gauge: &mut Gauge, call: extern "C" fn(&[u64; 6], u64) -> u64) {
    let swaps = any_swaps(&mut gauge.random);
    let word = word(&mut gauge.random, 64);
    gauge.measure(|| call(&swaps, word));
}

fn routed<A>(gauge: &mut Gauge, call: impl Fn(u32, &[u8]) -> A) {
    for width in WIDTHS {
        let mut permutations: Vec<_> = FIXED.iter().map(|fixed| fixed(width)).collect();
        permutations.push(one_loop(width));
        permutations.push(random_permutation(&mut gauge.random, width));
        permutations.push(permutation(&mut gauge.random, width));
        for permutation in permutations {
            gauge.measure(|| call(width, &permutation));
        }
    }
}

fn packed(gauge: &mut Gauge, call: impl Fn(u64, &[u64], usize, usize, &mut [u64]) -> TbPacked) {
    let random = &mut gauge.random;
    let mask = word(random, 64);
    let first = random_words(random, LONGEST);
    let mut second = first.clone();
    for (a, b) in [(0, LONGEST), cut(random, LONGEST)] {
        // Unpack refuses the random end.
        let mut clean = first.clone();
        clean_end(mask, &mut clean, a, b);
        for first in [&first, &clean] {
            gauge.measure(|| call(mask, first, a, b, &mut second));
        }
    }
}

fn converted(gauge: &mut Gauge, call: extern "C" fn(&Words) -> TbPlanes) {
    let words = any_eight(&mut gauge.random);
    gauge.measure(|| call(&words));
}

fn moved(gauge: &mut Gauge, call: extern "C" fn(u64) -> u64) {
    let tile = word(&mut gauge.random, 64);
    gauge.measure(|| call(tile));
}

fn paired(gauge: &mut Gauge, call: extern "C" fn(u32, u64, u64) -> TbCarried) {
    let size = size(&mut gauge.random);
    let [first, second] = [(); 2].map(|()| word(&mut gauge.random, 64));
    gauge.measure(|| call(size, first, second));
}

/// The longest list and any, to their end and with less.
fn ran(gauge: &mut Gauge) {
    let longest = program(&mut gauge.random, 1_024);
    for list in [longest, list(&mut gauge.random)] {
        for budget in [0, budget(&mut gauge.random, &list), u32::MAX] {
            let mut bank = lent(&bank(&mut gauge.random));
            gauge.measure(|| tb_run(&mut bank, &list, budget));
        }
    }
}

/// Likewise.
fn ran_on(gauge: &mut Gauge) {
    let longest = program(&mut gauge.random, 1_024);
    let waiting = waiting_bank(&mut gauge.random, &longest);
    for (bank, list) in [(waiting, longest), continued(&mut gauge.random)] {
        for budget in [0, budget(&mut gauge.random, &list), u32::MAX] {
            let mut bank = lent(&bank);
            gauge.measure(|| tb_continue(&mut bank, &list, budget));
        }
    }
}

/// Four of the longest lists, new and continued, by their guarantees, by what one leaves, or
/// not at all; and any frame.
fn framed(gauge: &mut Gauge) {
    let random = &mut gauge.random;
    let channels = [0, 1, 2, 3].map(|number| {
        let list = program(random, 1_024);
        match number % 2 {
            0 => (bank(random), list),
            _ => (waiting_bank(random, &list), list),
        }
    });
    let any = frame(random);
    for guarantees in [
        [1 << 16; 4],
        [1 << 20, 2, 1 << 10, 1],
        [0, 0, 0, 1 << 20],
        [0; 4],
    ] {
        measure_frame(gauge, &Frame::of(channels.clone(), guarantees));
    }
    measure_frame(gauge, &any);
}

fn measure_frame(gauge: &mut Gauge, frame: &Frame) {
    let mut banks = frame.banks.each_ref().map(lent);
    let lists = frame.lists.each_ref().map(Vec::as_slice);
    gauge.measure(|| tb_frame(banks.each_mut(), lists, &frame.guarantees, frame.cycles));
}

/// Measured on a thread, so that the stack is a fresh one.
fn deepest(measure: Measure) -> usize {
    let measured = move || {
        let mut gauge = Gauge::default();
        (0..ROUNDS).for_each(|_| measure(&mut gauge));
        gauge.deepest
    };
    let thread = thread::Builder::new().stack_size(STACK).spawn(measured);
    let joined = thread.expect("a thread starts").join();
    joined.expect("each call returns")
}

#[test]
fn each_call_uses_less_than_16_kib() {
    println!("{:<22} {:>6}", "call", "bytes");
    for (name, measure) in CALLS {
        let bytes = deepest(measure);
        println!("{name:<22} {bytes:>6}");
        assert!(bytes < LIMIT, "{name} uses {bytes} bytes of stack");
    }
}

#[test]
fn runs_use_less_than_2_kib() {
    for (name, measure) in [("tb_run", ran as Measure), ("tb_continue", ran_on)] {
        let bytes = deepest(measure);
        assert!(bytes < LIMIT_OF_RUNS, "{name} uses {bytes} bytes of stack");
    }
}

#[test]
fn frames_use_less_than_8_kib() {
    let bytes = deepest(framed);
    assert!(
        bytes < LIMIT_OF_FRAMES,
        "tb_frame uses {bytes} bytes of stack"
    );
}

/// So that routing it is measured at its deepest.
#[test]
fn one_loop_is_one() {
    for width in WIDTHS {
        let permutation = one_loop(width);
        let permutation: Vec<usize> = permutation.iter().map(|&bit| bit.into()).collect();
        let mut loops = 0;
        let mut count = || {
            loops += 1;
            true
        };
        valid_stage(&mut count, &permutation);
        assert_eq!(loops, 1, "width {width}");
    }
}
