//! Gather, scatter and group at width 64, on random masks and words.

use crate::bmi2;
use crate::contest::Contest;
use crate::table::{print_heading, print_line};
use crate::timing::{inputs, Calls};
use crate::WIDTH;
use conformance::samples::Random;
use tigbayon::{tb_gather, tb_group, tb_scatter, TbGathered};

/// A call of the library, of width, mask and word.
pub type OfMask = extern "C" fn(u32, u64, u64) -> TbGathered;

/// A sort of mask.
pub type Mask = fn(&mut Random) -> u64;

const MASKS: [(&str, Mask); 6] = [
    ("0", |_| 0),
    ("all ones", |_| u64::MAX),
    ("one bit", |random| 1 << random.below(WIDTH)),
    ("sparse", |random| {
        random.word() & random.word() & random.word()
    }),
    ("dense", |random| {
        random.word() | random.word() | random.word()
    }),
    ("random", Random::word),
];

/// The calls on each sort of mask.
pub fn by_mask() {
    let calls: [(_, OfMask); 3] = [
        ("gather", tb_gather),
        ("scatter", tb_scatter),
        ("group", tb_group),
    ];
    print_heading("by mask", "call", MASKS.map(|(name, _)| name));
    for (name, call) in calls {
        let columns = MASKS.map(|(_, mask)| {
            let inputs = inputs(1, |random| (mask(random), random.word()));
            let calls = Calls::new(&inputs, move |&(mask, word)| call(WIDTH, mask, word));
            (calls, 1)
        });
        print_line(name, &columns);
    }
}

/// Gather beside its peers.
pub fn gather(name: &str) {
    beside(tb_gather, "Hacker's Delight compress", compress)
        .within(0.55)
        .peer("bit loop", on_pair(gather_by_loop))
        .peer_if_any("BMI2 instruction", bmi2::pext().map(on_pair))
        .print(name);
}

/// Scatter beside its peers.
pub fn scatter(name: &str) {
    beside(tb_scatter, "Hacker's Delight expand", expand)
        .within(0.6)
        .peer("bit loop", on_pair(scatter_by_loop))
        .peer_if_any("BMI2 instruction", bmi2::pdep().map(on_pair))
        .print(name);
}

/// Group beside its peers, each of which gathers twice, and beside gather.
pub fn group(name: &str) {
    let by_compress = "two Hacker's Delight compresses";
    let by_pext = bmi2::pext().map(group_by);
    beside(tb_group, by_compress, group_by(compress))
        .within(0.55)
        .beside("the library's gather", |&(mask, word)| {
            tb_gather(WIDTH, mask, word)
        })
        .within(2.2)
        .peer("bit loop", on_pair(group_by(gather_by_loop)))
        .peer_if_any("BMI2 instruction", by_pext.map(on_pair))
        .print(name);
}

/// A function of mask and word.
pub trait Peer: Fn(u64, u64) -> u64 + 'static {}

impl<F: Fn(u64, u64) -> u64 + 'static> Peer for F {}

/// The library's call beside its peer of parallel suffixes. Peers answer the word
/// alone: the count of marked bits is in the library's time only.
fn beside(library: OfMask, by: &'static str, peer: impl Peer) -> Contest<(u64, u64), u64> {
    Contest::of(
        |random| (random.word(), random.word()),
        move |&(mask, word)| library(WIDTH, mask, word).word,
    )
    .peer(by, on_pair(peer))
}

fn on_pair(peer: impl Peer) -> impl Fn(&(u64, u64)) -> u64 {
    move |&(mask, word)| peer(mask, word)
}

fn gather_by_loop(mask: u64, word: u64) -> u64 {
    let (mut result, mut i) = (0, 0);
    for p in 0..WIDTH {
        if mask >> p & 1 == 1 {
            result |= (word >> p & 1) << i;
            i += 1;
        }
    }
    result
}

fn scatter_by_loop(mask: u64, word: u64) -> u64 {
    let (mut result, mut i) = (0, 0);
    for p in 0..WIDTH {
        if mask >> p & 1 == 1 {
            result |= (word >> i & 1) << p;
            i += 1;
        }
    }
    result
}

/// Gathers the marked bits, and beside them the unmarked ones.
pub fn group_by(gather: impl Peer) -> impl Peer {
    move |mask, word| {
        let left = gather(!mask, word).checked_shl(mask.count_ones());
        gather(mask, word) | left.unwrap_or(0)
    }
}

/// Hacker's Delight, Section 7-4: compress, or generalised extract.
pub fn compress(mask: u64, word: u64) -> u64 {
    compress_by(&moves(mask), mask, word)
}

/// The same on moves made before.
pub fn compress_by(moves: &[u64; 6], mask: u64, word: u64) -> u64 {
    (0..6).fold(word & mask, |word, i| {
        let moved = word & moves[i];
        word ^ moved | moved >> (1 << i)
    })
}

/// Hacker's Delight, Section 7-5: expand, or generalised insert.
pub fn expand(mask: u64, word: u64) -> u64 {
    expand_by(&moves(mask), mask, word)
}

/// The same on moves made before.
pub fn expand_by(moves: &[u64; 6], mask: u64, word: u64) -> u64 {
    let spread = (0..6).rev().fold(word, |word, i| {
        let moved = word << (1 << i) & moves[i];
        word & !moves[i] | moved
    });
    spread & mask
}

/// For i of 0 to 5, the bits that compress moves to the right by 2^i, as they
/// lie after the lower moves.
pub fn moves(mut mask: u64) -> [u64; 6] {
    let mut zeros_to_the_right = !mask << 1;
    let mut moves = [0; 6];
    for (i, moved) in moves.iter_mut().enumerate() {
        let odd_count = parity_of_suffixes(zeros_to_the_right);
        *moved = odd_count & mask;
        mask = mask ^ *moved | *moved >> (1 << i);
        zeros_to_the_right &= !odd_count;
    }
    moves
}

/// Bit p is the parity of bits 0 to p.
fn parity_of_suffixes(word: u64) -> u64 {
    (0..6).fold(word, |word, i| word ^ word << (1 << i))
}
