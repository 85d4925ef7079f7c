//! Routing by groups, at width 64 and at width 8, on random permutations.

use crate::contest::Contest;
use crate::masks::{compress_by, moves};
use crate::twin::{log_of, refusal};
use crate::WIDTH;
use conformance::samples::random_permutation;
use std::array;
use tigbayon::{tb_route_groups, TbMasks};

/// A byte for each place.
type Places = [u8; 64];

/// Beside the same loops, and beside the bits of destinations in words. At width 8 for
/// the record: there the compiler of the loops writes their steps out one by one.
pub fn route_groups(name: &str) {
    beside_loops(WIDTH)
        .within(1.2)
        .peer("bits of destinations in words", |permutation| {
            routed(WIDTH, permutation, by_words)
        })
        .print(name);
    beside_loops(8).print(&format!("{name}, width 8"));
}

fn beside_loops(width: u32) -> Contest<Vec<u8>, TbMasks> {
    Contest::of(
        move |random| random_permutation(random, width),
        move |permutation| tb_route_groups(width, permutation),
    )
    .peer("the same loops, unproved", move |permutation| {
        routed(width, permutation, by_passes)
    })
}

/// What routing answers, or the refusal and zeros.
fn routed(width: u32, entries: &[u8], masks: impl Fn(usize, &[u8]) -> [u64; 6]) -> TbMasks {
    let refusal = refusal(width, entries);
    let masks = match refusal {
        0 => masks(log_of(width), entries),
        _ => [0; 6],
    };
    TbMasks { refusal, masks }
}

/// As the library does it: the loops of crate grouping as they stood until 2026-11-27,
/// line by line.
fn by_passes(log: usize, entries: &[u8]) -> [u64; 6] {
    let mut masks = [0; 6];
    let (mut from, mut into) = ([0; 64], [0; 64]);
    let mask = take_destinations(&mut from, entries);
    let width = entries.len();
    fill_masks(&mut from, &mut into, &mut masks, log, width, 0, mask);
    masks
}

fn zero_at(destination: u8, index: usize) -> u64 {
    1 - (u64::from(destination) >> index) % 2
}

fn take_destinations(to: &mut Places, entries: &[u8]) -> u64 {
    let mut mask = 0;
    for (place, &content) in (0..).zip(entries) {
        to[usize::from(content)] = place;
        mask |= zero_at(place, 0) << content;
    }
    mask
}

fn fill_masks(
    from: &mut Places,
    into: &mut Places,
    masks: &mut [u64; 6],
    log: usize,
    width: usize,
    step: usize,
    mask: u64,
) {
    masks[step] = mask;
    let after = step + 1;
    if after == log {
        return;
    }
    let next = group_pass(from, into, width, mask, after);
    fill_masks(into, from, masks, log, width, after, next);
}

fn group_pass(from: &Places, into: &mut Places, width: usize, mask: u64, index: usize) -> u64 {
    let half = width / 2;
    let (mut next, mut low) = (0, 0);
    for (place, &destination) in from[..width].iter().enumerate() {
        let marked = (mask >> place) % 2;
        let above = half + (place - low);
        let at = if marked == 1 { low } else { above };
        into[at] = destination;
        next |= zero_at(destination, index) << at;
        low += marked as usize;
    }
    next
}

/// Bit i of every content's destination in word i, each word grouped by Hacker's
/// Delight's compress, whose moves are made once a mask.
fn by_words(log: usize, entries: &[u8]) -> [u64; 6] {
    let width = entries.len();
    let ones = u64::MAX >> (64 - width);
    let mut destinations: [u64; 6] = array::from_fn(|i| {
        let places = (0..width).zip(entries);
        places.fold(0, |word, (place, content)| {
            word | (place as u64 >> i & 1) << content
        })
    });
    let mut masks = [0; 6];
    for step in 0..log {
        let unmarked = destinations[step];
        let mask = !unmarked & ones;
        let (down, up) = (moves(mask), moves(unmarked));
        for word in &mut destinations[step + 1..log] {
            *word =
                compress_by(&down, mask, *word) | compress_by(&up, unmarked, *word) << (width / 2);
        }
        masks[step] = mask;
    }
    masks
}
