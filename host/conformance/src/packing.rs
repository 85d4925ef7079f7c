//! Pack and unpack beside their model.

use crate::lists::ListCall;
use crate::low_ones;
use crate::samples::{random_words, Random};
use model::packing::Packed;
use model::refusal::Answer;
use std::ops::Range;
use tigbayon::{Refusal, TbPacked};

/// The most words of a list.
pub const LONGEST: usize = 2_048;

/// Counts of marked bits to try: none, all, and those around a half and a whole
/// word.
pub const COUNTS: [u32; 8] = [0, 1, 12, 31, 32, 33, 63, 64];

type OfWords<A> = fn(u64, &[u64], usize, usize, &mut [u64]) -> A;

/// A call of a mask, a first list of words, numbers a and b, and a second list,
/// which is lent: as the archive exports it, as the wrapper offers it, and as
/// the model defines it.
pub struct PackingCall {
    /// The call's name.
    pub name: &'static str,
    cuts_first: bool,
    raw: OfWords<Answer<Packed>>,
    wrapped: OfWords<Result<Packed, Refusal>>,
    model: OfWords<Answer<Packed>>,
}

/// Pack.
pub const PACK: PackingCall = PackingCall {
    name: "pack",
    cuts_first: true,
    raw: |mask, words, a, b, out| packed(tigbayon::tb_pack(mask, words, a, b, out)),
    wrapped: |mask, words, a, b, out| tigbayon::pack(mask, words, a..b, out).map(wrapped_packed),
    model: model::packing::pack,
};

/// Unpack.
pub const UNPACK: PackingCall = PackingCall {
    name: "unpack",
    cuts_first: false,
    raw: |mask, words, a, b, out| packed(tigbayon::tb_unpack(mask, words, a, b, out)),
    wrapped: |mask, words, a, b, out| tigbayon::unpack(mask, words, a..b, out).map(wrapped_packed),
    model: model::packing::unpack,
};

/// Both of them.
pub const PACKING_CALLS: [PackingCall; 2] = [PACK, UNPACK];

impl PackingCall {
    /// Makes the call all three ways, panics unless they agree in every part
    /// of the answer and in every word of the second list, hands the answer
    /// back and leaves the words so.
    pub fn check(
        &self,
        mask: u64,
        first: &[u64],
        a: usize,
        b: usize,
        out: &mut [u64],
    ) -> Answer<Packed> {
        let call = ListCall {
            raw: |first: &[u64], out: &mut [u64]| (self.raw)(mask, first, a, b, out),
            wrapped: |first: &[u64], out: &mut [u64]| (self.wrapped)(mask, first, a, b, out),
            model: |first: &[u64], out: &mut [u64]| (self.model)(mask, first, a, b, out),
        };
        call.check(|| format!("{} {mask:x} {a} {b}", self.name), first, out)
    }

    /// Checks that the call is refused by this number and leaves every word as
    /// it was, or, if it is 0, that it is carried out and counts the marked bits
    /// and those of all fields.
    pub fn assert_number(
        &self,
        number: u8,
        mask: u64,
        first: &[u64],
        (a, b): (usize, usize),
        out: &mut [u64],
    ) {
        let input = || format!("{} {mask:x} {} {a} {b}", self.name, first.len());
        let before = out.to_vec();
        let answer = self.check(mask, first, a, b, out);
        assert_eq!(answer.refusal, number, "{} {}", input(), out.len());
        if number == 0 {
            let (count, bits) = (mask.count_ones(), bits(mask, a, b));
            assert_eq!(answer.result, Packed { count, bits }, "{}", input());
        } else {
            assert_eq!(answer, Answer::refused(number), "{}", input());
            assert!(out == before, "{}", input());
        }
    }

    /// Random words, a first and a second list, of these lengths: of the one
    /// that a and b cut, and of the other. The end of what unpack reads is clean.
    pub fn lists(
        &self,
        random: &mut Random,
        mask: u64,
        (a, b): (usize, usize),
        (cut, other): (usize, usize),
    ) -> (Vec<u64>, Vec<u64>) {
        let cut = random_words(random, cut);
        let mut other = random_words(random, other);
        if self.cuts_first {
            return (cut, other);
        }
        clean_end(mask, &mut other, a, b);
        (other, cut)
    }
}

/// The bits of the fields a to b-1.
pub fn bits(mask: u64, a: usize, b: usize) -> u64 {
    u64::from(mask.count_ones()) * (b - a) as u64
}

/// The words that they need.
pub fn words_needed(mask: u64, a: usize, b: usize) -> usize {
    bits(mask, a, b).div_ceil(64) as usize
}

/// The number of the last word that unpack reads, and its spare bits. None are
/// spare if the fields fill that word or have no bits, or if a and b cut no list.
pub fn spare(mask: u64, a: usize, b: usize) -> Option<(usize, Range<u32>)> {
    if a > b || b > LONGEST {
        return None;
    }
    let in_last = bits(mask, a, b) % 64;
    (in_last != 0).then(|| (words_needed(mask, a, b) - 1, in_last as u32..64))
}

/// Clears the spare bits of the last word that unpack reads, if the list has it.
pub fn clean_end(mask: u64, packed: &mut [u64], a: usize, b: usize) {
    if let Some((last, bits)) = spare(mask, a, b) {
        if let Some(word) = packed.get_mut(last) {
            *word &= low_ones(bits.start);
        }
    }
}

fn packed(answer: TbPacked) -> Answer<Packed> {
    let TbPacked {
        refusal,
        count,
        bits,
    } = answer;
    let result = Packed { count, bits };
    Answer { refusal, result }
}

fn wrapped_packed(tigbayon::Packed { count, bits }: tigbayon::Packed) -> Packed {
    Packed { count, bits }
}
