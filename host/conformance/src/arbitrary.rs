//! Arguments of every sort: most are good, some damaged, and the widths, the
//! lengths and the cuts reach their limits and beyond.

use crate::controls::Controls;
use crate::frame::Frame;
use crate::packing::{spare, words_needed, LONGEST};
use crate::pixels::{wrapping_to, Plane, Shape, LONGEST_SHAPES};
use crate::programs::{self, bank, cycles, damage, program};
use crate::samples::{any_controls, any_permutation, any_word, Random};
use crate::unit::{Bank, Operation};
use crate::{SIZES, WIDTHS};
use std::iter::zip;

/// A width to hand over, and the accepted one that the other arguments are made
/// for, which mostly is the same.
pub fn widths(random: &mut Random) -> (u32, u32) {
    let width = random.pick(&WIDTHS);
    let handed = match random.below(16) {
        0 => random.pick(&WIDTHS),
        1 => random.below(130),
        2 => random.word() as u32,
        // A narrower integer would cut it to the accepted one.
        3 => width | 1 << (8 + random.below(24)),
        _ => width,
    };
    (handed, width)
}

/// A size of subwords; some are not accepted.
pub fn size(random: &mut Random) -> u32 {
    let size = random.pick(&SIZES);
    match random.below(16) {
        0 => random.pick(&[0, 64, 128]),
        1 => random.below(130),
        2 => random.word() as u32,
        // A narrower integer would cut it to the accepted one.
        3 => size | 1 << (8 + random.below(24)),
        _ => size,
    }
}

/// A word or a mask; some have ones above the width.
pub fn word(random: &mut Random, width: u32) -> u64 {
    match random.below(16) {
        0 => any_word(random, 64),
        1 => any_word(random, width) | 1 << random.below(64),
        _ => any_word(random, width),
    }
}

/// Controls; some have ones in unused bits or stages.
pub fn controls(random: &mut Random, width: u32) -> Controls {
    let mut controls = any_controls(random, width);
    match random.below(16) {
        0 => controls = any_controls(random, 64),
        1 | 2 => controls[random.below(6) as usize] |= 1 << random.below(32),
        _ => {}
    }
    controls
}

/// A permutation; some have another length, entries that are out of range, or
/// repeated ones.
pub fn permutation(random: &mut Random, width: u32) -> Vec<u8> {
    let mut permutation = any_permutation(random, width);
    let [one, other] = [(); 2].map(|()| random.below(width) as usize);
    match random.below(16) {
        0 => permutation.clear(),
        1 => permutation.truncate(one),
        2 => permutation.resize(one + other, random.byte()),
        3 => permutation[one] = random.byte(),
        4 => permutation[one] = permutation[other],
        5 => permutation = bytes(random, width),
        _ => {}
    }
    permutation
}

/// So many bytes.
fn bytes(random: &mut Random, count: u32) -> Vec<u8> {
    (0..count).map(|_| random.byte()).collect()
}

/// The length of a list of words: mostly short, or around the greatest.
pub fn length(random: &mut Random) -> usize {
    match random.below(32) {
        0 => LONGEST - 1 + random.below(3) as usize,
        _ => random.below(41) as usize,
    }
}

/// Numbers a and b for a list of words of this length; some do not cut it.
pub fn cut(random: &mut Random, length: usize) -> (usize, usize) {
    let [one, other] = [(); 2].map(|()| random.below(length as u32 + 1) as usize);
    match random.below(16) {
        0 => (number(random, length), number(random, length)),
        1 => (one, number(random, length)),
        2 => (one, other),
        3 | 4 => (0, length),
        _ => (one.min(other), one.max(other)),
    }
}

/// A number around the ends of a list of words, or far beyond.
fn number(random: &mut Random, length: usize) -> usize {
    let any = random.word() as usize;
    let near = random.below(4) as usize;
    let beyond = [usize::MAX, usize::MAX - near, usize::MAX / 2 + near];
    let around = [near, length, length + 1 + near, LONGEST + near];
    // A product with a count of bits wraps around to nothing, or to a few.
    let multiple = any << (usize::BITS - 6);
    let wrapping = [any, multiple, multiple + near];
    random.pick(&[&beyond[..], &around, &wrapping].concat())
}

/// The length of the list of words that a and b do not cut; some are shorter by a
/// word than the bits need.
pub fn other_length(random: &mut Random, mask: u64, (a, b): (usize, usize)) -> usize {
    if a > b || b > LONGEST {
        return length(random);
    }
    let needed = words_needed(mask, a, b);
    match random.below(8) {
        0 | 1 => needed.saturating_sub(1),
        2 => needed + random.below(4) as usize,
        3 => length(random),
        _ => needed,
    }
}

/// The end of the words that unpack reads, clean so far: in some one spare bit
/// becomes a one, in some the spare bits become any.
pub fn end(random: &mut Random, mask: u64, packed: &mut [u64], (a, b): (usize, usize)) {
    let Some((last, bits)) = spare(mask, a, b) else {
        return;
    };
    let any = bits.start + random.below(64 - bits.start);
    let dirt = match random.below(16) {
        0..=2 => 1 << any,
        3 => 1 << bits.start,
        4 => 1 << 63,
        5 => random.word() << bits.start,
        _ => 0,
    };
    if let Some(word) = packed.get_mut(last) {
        *word |= dirt;
    }
}

/// The words of a plane, the shape that is handed over with it, and the length of the
/// list to write into. Some planes are empty, some longer or shorter than their shape,
/// some lists short of the plane.
pub fn plane(random: &mut Random) -> (Vec<u64>, Shape, usize) {
    let [rows, row_words] = [6, 4].map(|most| 1 + random.below(most) as usize);
    let many = 1 + random.below(600) as usize;
    let shape = match random.below(128) {
        0 => random.pick(&LONGEST_SHAPES),
        1 => random.pick(&[(1, LONGEST + 1), (LONGEST + 1, 1), (3, 683)]),
        2 => random.pick(&[(many, 1), (many, 3), (1, many), (3, many)]),
        3..=6 => random.pick(&[(0, 0), (rows, 0), (0, row_words)]),
        _ => (rows, row_words),
    };
    let mut plane = Plane::any(random, shape).words;
    let words = plane.len();
    if random.below(16) == 0 {
        plane.resize(length(random), random.word());
    }
    let handed = handed(random, shape);
    let out_length = match random.below(8) {
        0 => words.saturating_sub(1),
        1 | 2 => words + random.below(4) as usize,
        3 => length(random),
        _ => words,
    };
    (plane, handed, out_length)
}

/// A shape to hand over in the place of this one, mostly the same. The product of some
/// wraps around to the same words.
fn handed(random: &mut Random, (rows, row_words): Shape) -> Shape {
    let (any, other) = (random.word() as usize, number(random, rows * row_words));
    match random.below(16) {
        0 => (other, row_words),
        1 => (rows, other),
        2 => (other, number(random, rows)),
        3 => random.pick(&[(0, row_words), (rows, 0), (0, 0), (0, other), (other, 0)]),
        4 => (any | 1, wrapping_to(rows * row_words, any | 1)),
        5 => (row_words, rows),
        _ => (rows, row_words),
    }
}

/// An operation; some bytes are any.
pub fn operation(random: &mut Random) -> Operation {
    let mut operation = program(random, 1);
    if random.below(2) == 0 {
        damage(random, &mut operation);
    }
    operation.try_into().expect("four bytes")
}

/// A list of operations; some have another length, or bytes that are any.
pub fn list(random: &mut Random) -> Vec<u8> {
    let operations = match random.below(32) {
        0 => 1_025,
        _ => operations(random),
    };
    let mut list = program(random, operations);
    match random.below(8) {
        0 | 1 => damage(random, &mut list),
        2 => list.truncate(list.len().saturating_sub(1 + random.below(3) as usize)),
        3 => {
            let count = random.below(41);
            list = bytes(random, count);
        }
        _ => {}
    }
    list
}

/// How many operations a list has: mostly few, or as many as it may.
fn operations(random: &mut Random) -> u32 {
    match random.below(32) {
        0 => 1_024,
        _ => random.below(13),
    }
}

/// A bank that waits, or does not; some of those that wait remember more than there is.
pub fn any_bank(random: &mut Random) -> Bank {
    let any = random.byte();
    let waiting = random.pick(&[0, 0, 1, any]);
    Bank {
        waiting,
        ..bank(random)
    }
}

/// A bank to run this list on; some remember it, and some of these wait.
pub fn bank_for(random: &mut Random, list: &[u8]) -> Bank {
    let mut bank = any_bank(random);
    if random.below(4) == 0 {
        remember(&mut bank, list);
    }
    bank
}

/// Makes this list the remainder, as far as the bank can hold it.
fn remember(bank: &mut Bank, list: &[u8]) {
    let held = list.len().min(programs::LONGEST);
    bank.left = list.len() as u32;
    bank.list[..held].copy_from_slice(&list[..held]);
}

/// A bank and the list that its run is continued with: mostly the remainder. Some of
/// these are refused, whatever is remembered; some banks do not wait; some remainders
/// differ from the list in a byte, or in length.
pub fn continued(random: &mut Random) -> (Bank, Vec<u8>) {
    let mut list = match random.below(4) {
        0 => list(random),
        _ => {
            let operations = operations(random);
            program(random, operations)
        }
    };
    let mut bank = any_bank(random);
    bank.waiting = bank.waiting.max(1);
    // What stands after the remainder could be more of it.
    bank.list[..64].copy_from_slice(&program(random, 16));
    remember(&mut bank, &list);
    let held = list.len().min(programs::LONGEST);
    match random.below(16) {
        0 => bank.waiting = 0,
        1 => damage(random, &mut list),
        2 => damage(random, &mut bank.list[..held]),
        3 => bank.left ^= 1 << random.below(32),
        4 => list.truncate(held.saturating_sub(4)),
        5 => list.extend(&bank.list[held..programs::LONGEST.min(held + 4)]),
        _ => {}
    }
    (bank, list)
}

/// A budget for this list: none, small, around its cycles, or any.
pub fn budget(random: &mut Random, list: &[u8]) -> u32 {
    let total = cycles(list);
    let within = random.below(total + 2);
    let any = random.word() as u32;
    let one_less = total.saturating_sub(1);
    random.pick(&[0, 1, 2, 3, within, within, one_less, total, any, u32::MAX])
}

/// A channel that refuses nothing: its bank does not wait, or waits for this list.
fn good_channel(random: &mut Random) -> (Bank, Vec<u8>) {
    let operations = match random.below(128) {
        0 => 1_024,
        _ => random.below(13),
    };
    let list = program(random, operations);
    let mut bank = any_bank(random);
    if bank.waiting != 0 {
        remember(&mut bank, &list);
    }
    (bank, list)
}

/// A frame that is carried out; some have more cycles than are guaranteed.
pub fn good_frame(random: &mut Random) -> Frame {
    let channels = [(); 4].map(|()| good_channel(random));
    let guarantees = channels.each_ref().map(|(_, list)| {
        let most = cycles(list) + 4;
        budget(random, list) % most
    });
    let mut frame = Frame::of(channels, guarantees);
    let more = random.word() as u32 >> random.below(32);
    frame.cycles = random.pick(&[frame.cycles, frame.cycles.saturating_add(more), u32::MAX]);
    frame
}

/// A frame of any sort: some channels, guarantees or cycles make it a refused one.
pub fn frame(random: &mut Random) -> Frame {
    let mut frame = good_frame(random);
    for _ in 0..random.pick(&[0, 0, 1, 1, 2, 4]) {
        spoil(random, &mut frame);
    }
    frame
}

/// Makes one thing of a frame another, which need not be refused.
fn spoil(random: &mut Random, frame: &mut Frame) {
    let number = random.below(4) as usize;
    match random.below(5) {
        0 => (frame.banks[number], frame.lists[number]) = continued(random),
        1 => {
            frame.lists[number] = list(random);
            frame.banks[number] = bank_for(random, &frame.lists[number]);
        }
        2 => frame.guarantees[number] = budget(random, &frame.lists[number]),
        3 => frame.cycles = random.word() as u32,
        _ => {
            let sum: u64 = frame.guarantees.map(u64::from).iter().sum();
            frame.cycles = (sum as u32).wrapping_sub(random.below(2));
        }
    }
}

/// Brings other lists for the next frame of these banks: mostly their remainders, or new
/// ones where they do not wait.
pub fn bring_next(random: &mut Random, frame: &mut Frame) {
    for (bank, list) in zip(&frame.banks, &mut frame.lists) {
        match bank.list.get(..bank.left as usize) {
            _ if random.below(32) == 0 => {}
            Some(remainder) if bank.waiting != 0 => *list = remainder.to_vec(),
            _ => {
                let operations = random.below(13);
                *list = program(random, operations);
            }
        }
    }
}

/// The number of a register; some are above 15.
pub fn register(random: &mut Random) -> u8 {
    match random.below(4) {
        0 => random.byte(),
        _ => random.below(17) as u8,
    }
}

/// A byte to enable or to acknowledge: one bit, those that are read or the others,
/// none, all, or any.
pub fn byte(random: &mut Random) -> u8 {
    match random.below(4) {
        0 => 1 << random.below(8),
        1 => random.pick(&[0b111, !0b111, 0, 0xFF]),
        _ => random.byte(),
    }
}
