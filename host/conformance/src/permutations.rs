//! Permutations of a width: entry p names the bit that place p takes.

use crate::controls::stages;

/// Those that a width has one of.
pub const FIXED: [fn(u32) -> Vec<u8>; 5] = [identity, reversal, index_reversal, shuffle, unshuffle];

/// The permutation whose place p takes bit `source(p)`.
fn permutation(width: u32, source: impl Fn(u32) -> u32) -> Vec<u8> {
    (0..width).map(|place| source(place) as u8).collect()
}

/// Every bit stays.
pub fn identity(width: u32) -> Vec<u8> {
    permutation(width, |place| place)
}

/// The bits in reversed order.
pub fn reversal(width: u32) -> Vec<u8> {
    permutation(width, |place| width - 1 - place)
}

/// The bits turned to the right by so many places.
pub fn rotation(width: u32, places: u32) -> Vec<u8> {
    permutation(width, |place| (place + places) % width)
}

/// Two bits swapped, unless they are one.
pub fn swap(width: u32, one: u32, other: u32) -> Vec<u8> {
    let mut permutation = identity(width);
    permutation.swap(one as usize, other as usize);
    permutation
}

/// Each bit goes to the place whose number is its own read backwards, in base
/// two.
pub fn index_reversal(width: u32) -> Vec<u8> {
    let digits = width.ilog2();
    permutation(width, |place| place.reverse_bits() >> (32 - digits))
}

/// The perfect shuffle: bits of the lower and of the upper half in turn.
pub fn shuffle(width: u32) -> Vec<u8> {
    permutation(width, |place| place / 2 + place % 2 * (width / 2))
}

/// The shuffle undone: even bits to the lower half, odd ones to the upper.
pub fn unshuffle(width: u32) -> Vec<u8> {
    permutation(width, |place| place * 2 % width + place * 2 / width)
}

/// One whose outer stages' switches are bound into one loop, so that routing
/// goes the longest way round; its lower half is such a permutation again.
pub fn one_loop(width: u32) -> Vec<u8> {
    if width == 1 {
        return identity(1);
    }
    let half = width as u8 / 2;
    let lower = one_loop(width / 2);
    let upper = lower.iter().map(|&bit| half + (bit + 1) % half);
    lower.iter().copied().chain(upper).collect()
}

/// One permutation, then another.
pub fn product(one: &[u8], then: &[u8]) -> Vec<u8> {
    then.iter().map(|&bit| one[usize::from(bit)]).collect()
}

/// The permutation that undoes this one.
pub fn undoing(permutation: &[u8]) -> Vec<u8> {
    let mut undoing = vec![0; permutation.len()];
    for (place, &bit) in (0..).zip(permutation) {
        undoing[usize::from(bit)] = place;
    }
    undoing
}

/// The permutation by which `carry` moves the bits of words. For each digit of
/// the bits' numbers, in base two, it carries the word of those that have a one
/// there.
pub fn realised(width: u32, carry: impl Fn(u64) -> u64) -> Vec<u8> {
    let mut permutation = vec![0; width as usize];
    for digit in 0..stages(width) {
        let bits = (0..width).filter(|bit| bit >> digit & 1 == 1);
        let carried = carry(bits.map(|bit| 1 << bit).sum());
        for (place, bit) in permutation.iter_mut().enumerate() {
            *bit |= ((carried >> place & 1) as u8) << digit;
        }
    }
    permutation
}

/// All 40,320 permutations of width 8.
pub fn all_of_width_8() -> impl Iterator<Item = Vec<u8>> {
    (0..8 * 7 * 6 * 5 * 4 * 3 * 2).map(|mut number| {
        let mut left = identity(8);
        let mut permutation = Vec::new();
        while !left.is_empty() {
            permutation.push(left.remove(number % left.len()));
            number /= left.len() + 1;
        }
        permutation
    })
}
