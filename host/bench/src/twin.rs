//! Routing through both networks as the library does it, unproved: the loops of
//! crate first as they stood until 2026-11-27, line by line, after the refusals
//! of crate permute.

use tigbayon::TbControls2;

/// A switch that is not settled yet passes.
const UNSET: u8 = 1;

const SWAPS: u8 = 2;

const PASSES: u8 = 3;

/// A mark for each switch: that of switch s stands at 32e + s for the
/// butterfly's stage of distance 2^e, and at 192 + 32e + s for the inverse's.
/// Its low bit is the control bit.
type Marks = [u8; 384];

/// For each place the bit that it takes, or for each bit its place.
type Entries = [u8; 64];

/// The first controls of both networks, or the refusal and zeros.
pub fn route(width: u32, entries: &[u8]) -> TbControls2 {
    let refused = refusal(width, entries);
    if refused != 0 {
        return TbControls2 {
            refusal: refused,
            butterfly: [0; 6],
            inverse: [0; 6],
        };
    }
    controls(log_of(width), entries)
}

pub fn refusal(width: u32, entries: &[u8]) -> u8 {
    if log_of(width) == 0 {
        return 1;
    }
    if entries.len() != width as usize {
        return 4;
    }
    if !names_once(width as usize, entries) {
        return 5;
    }
    0
}

pub fn log_of(width: u32) -> usize {
    match width {
        8 => 3,
        16 => 4,
        32 => 5,
        64 => 6,
        _ => 0,
    }
}

fn names_once(width: usize, entries: &[u8]) -> bool {
    let mut seen: u64 = 0;
    for &entry in entries.iter().rev() {
        let entry = usize::from(entry);
        if width <= entry || (seen >> entry) % 2 != 0 {
            return false;
        }
        seen |= 1 << entry;
    }
    true
}

fn controls(log: usize, entries: &[u8]) -> TbControls2 {
    let mut marks = [UNSET; 384];
    let (mut to, mut from) = ([0; 64], [0; 64]);
    take_entries(&mut to, &mut from, entries);
    route_block(&mut to, &mut from, &mut marks, log - 1, 0);
    words(&marks, log)
}

fn take_entries(to: &mut Entries, from: &mut Entries, entries: &[u8]) {
    for (place, &bit) in entries.iter().enumerate() {
        to[place] = bit;
        from[usize::from(bit)] = place as u8;
    }
}

/// A block (e, b) has outer stages of distance 2^e: its switches there are
/// number b to b + 2^e - 1, its places begin at 2b.
fn route_block(to: &mut Entries, from: &mut Entries, marks: &mut Marks, e: usize, b: usize) {
    peel(to, from, marks, e, b);
    if e == 0 {
        return;
    }
    let left = e - 1;
    route_block(to, from, marks, left, b);
    route_block(to, from, marks, left, b + power(left));
}

fn peel(to: &mut Entries, from: &mut Entries, marks: &mut Marks, e: usize, b: usize) {
    settle(to, from, marks, e, b);
    halve(to, marks, 192 + 32 * e + b, e, b);
    halve(from, marks, 32 * e + b, e, b);
}

fn settle(to: &Entries, from: &Entries, marks: &mut Marks, e: usize, b: usize) {
    for s in 0..power(e) {
        visit(to, from, marks, e, b, s);
    }
}

fn visit(to: &Entries, from: &Entries, marks: &mut Marks, e: usize, b: usize, s: usize) {
    if marks[32 * e + b + s] != UNSET {
        return;
    }
    mark_first(marks, e, b, s);
    last_step(to, from, marks, e, b, s, power(e) + s);
}

/// At a bit that goes to the upper half.
fn last_step(
    to: &Entries,
    from: &Entries,
    marks: &mut Marks,
    e: usize,
    b: usize,
    start: usize,
    bit: usize,
) {
    let place = entry_of(from, b, bit);
    mark_last(marks, e, b, place);
    let next = entry_of(to, b, other_of(e, place));
    if switch_of(e, next) == start {
        return;
    }
    first_step(to, from, marks, e, b, start, next);
}

/// At a bit that goes to the lower half.
fn first_step(
    to: &Entries,
    from: &Entries,
    marks: &mut Marks,
    e: usize,
    b: usize,
    start: usize,
    bit: usize,
) {
    mark_first(marks, e, b, bit);
    last_step(to, from, marks, e, b, start, other_of(e, bit));
}

fn mark_last(marks: &mut Marks, e: usize, b: usize, place: usize) {
    marks[192 + 32 * e + b + switch_of(e, place)] = mark(place < power(e));
}

fn mark_first(marks: &mut Marks, e: usize, b: usize, bit: usize) {
    marks[32 * e + b + switch_of(e, bit)] = mark(power(e) <= bit);
}

fn halve(entries: &mut Entries, marks: &Marks, at: usize, e: usize, b: usize) {
    let half = power(e);
    for q in 0..half {
        let swap = marks[at + q] % 2 == 0;
        let lower = half_entry(entries, e, b, q, swap);
        let upper = half_entry(entries, e, b, q, !swap);
        entries[2 * b + q] = lower;
        entries[2 * b + q + half] = upper;
    }
}

/// Both entries are read, so that no branch hangs on the mark.
fn half_entry(entries: &Entries, e: usize, b: usize, q: usize, upper: bool) -> u8 {
    let half = power(e);
    let low = entries[2 * b + q];
    let high = entries[2 * b + q + half];
    pick(upper, high, low) % (half as u8)
}

fn pick(first: bool, x: u8, y: u8) -> u8 {
    if first {
        x
    } else {
        y
    }
}

fn words(marks: &Marks, log: usize) -> TbControls2 {
    let count = power(log - 1);
    let (mut butterfly, mut inverse) = ([0; 6], [0; 6]);
    for i in 0..log {
        butterfly[i] = word(marks, 32 * (log - 1 - i), count);
        inverse[i] = word(marks, 192 + 32 * i, count);
    }
    TbControls2 {
        refusal: 0,
        butterfly,
        inverse,
    }
}

fn word(marks: &Marks, at: usize, count: usize) -> u32 {
    let mut out = 0;
    for s in 0..count {
        out += usize::from(marks[at + s] % 2) << s;
    }
    out as u32
}

fn entry_of(entries: &Entries, b: usize, p: usize) -> usize {
    entries[2 * b + p].into()
}

fn other_of(e: usize, x: usize) -> usize {
    (x + power(e)) % (2 * power(e))
}

fn switch_of(e: usize, x: usize) -> usize {
    x % power(e)
}

fn mark(swap: bool) -> u8 {
    if swap {
        SWAPS
    } else {
        PASSES
    }
}

fn power(e: usize) -> usize {
    1 << e
}
