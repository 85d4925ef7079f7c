//! The register unit in plain Rust: runs within a budget, which wait and are continued.

use crate::decoding::by_digits;
use crate::masks::{compress, expand, group_by};
use crate::networks::{delta_swaps, swaps_of, STAGES};
use std::array;
use tigbayon::{Refusal, TbBank, TbRun};

/// A run, or the continuation of one: the library's or a peer's.
pub type RunCall = fn(&mut TbBank, &[u8], u32) -> TbRun;

/// How a run ends that is not refused, which is also its bit of the status byte.
pub const DONE: u8 = 1;
/// Likewise.
pub const SPENT: u8 = 2;
/// The status bit of a refused run.
const REFUSED: u8 = 4;

/// The cycles of each kind; there is no kind 0.
const CYCLES: [u32; 11] = [0, 1, 1, 1, 1, 1, 3, 3, 2, 2, 3];

/// For each kind the bits of an operation that are zero where the registers in use are
/// below 16; in kind 5 those of r2.
const ABOVE_15: [u32; 11] = [
    0,
    0x00F0_F000,
    0x00F0_F000,
    0xF0F0_F000,
    0xF0F0_F000,
    0x00F0_0000,
    0xF0F0_F000,
    0xF0F0_F000,
    0xF000_0000,
    0xF000_0000,
    0xF0F0_F000,
];

/// A run; a call apart, as the library's is.
#[inline(never)]
pub fn run(bank: &mut TbBank, list: &[u8], budget: u32) -> TbRun {
    let turned_back = bank.waiting != 0;
    carry_out(bank, list, budget, turned_back)
}

/// The run that waits, continued; likewise.
#[inline(never)]
pub fn continue_run(bank: &mut TbBank, list: &[u8], budget: u32) -> TbRun {
    let remainder = bank.list.get(..bank.left as usize);
    let turned_back = bank.waiting == 0 || remainder != Some(list);
    carry_out(bank, list, budget, turned_back)
}

fn carry_out(bank: &mut TbBank, list: &[u8], budget: u32, turned_back: bool) -> TbRun {
    let refusal = match refusal(list) {
        0 if turned_back => Refusal::Waiting as u8,
        number => number,
    };
    if refusal != 0 {
        bank.status |= REFUSED;
        let (end, ran, cycles) = (0, 0, 0);
        return TbRun {
            refusal,
            end,
            ran,
            cycles,
        };
    }
    let (ran, cycles) = perform(bank, list, budget);
    let rest = &list[4 * ran as usize..];
    let end = if rest.is_empty() { DONE } else { SPENT };
    bank.waiting = (end == SPENT).into();
    bank.status |= end;
    if end == SPENT {
        bank.left = rest.len() as u32;
        bank.list[..rest.len()].copy_from_slice(rest);
    }
    TbRun {
        refusal,
        end,
        ran,
        cycles,
    }
}

/// The refusal of a list by its operations; 0 if there is none.
fn refusal(list: &[u8]) -> u8 {
    let operations = || list.chunks_exact(4);
    if list.len() % 4 != 0 || list.len() > 4_096 {
        Refusal::Length as u8
    } else if !operations().all(is_kind) {
        Refusal::Kind as u8
    } else if !operations().all(are_registers) {
        Refusal::Register as u8
    } else {
        0
    }
}

fn is_kind(operation: &[u8]) -> bool {
    match operation[0] {
        5 => (1..=4).contains(&operation[1]),
        kind => (1..=10).contains(&kind),
    }
}

/// Of an operation whose kind is one.
fn are_registers(operation: &[u8]) -> bool {
    let [kind, r1, r2, r3] = array::from_fn(|i| operation[i]);
    let bits = u32::from_le_bytes([kind, r1, r2, r3]);
    let has_r3 = kind == 5 && r1 % 2 == 1;
    bits & ABOVE_15[usize::from(kind)] == 0 && !(has_r3 && r3 > 15)
}

/// Performs operations while their cycles fit; answers how many, and their cycles.
fn perform(bank: &mut TbBank, list: &[u8], budget: u32) -> (u32, u32) {
    let mut butterfly = Kept::<false>::of(bank.b);
    let mut inverse = Kept::<true>::of(bank.ib);
    let (mut ran, mut used) = (0, 0);
    for operation in list.chunks_exact(4) {
        let cycles = CYCLES[usize::from(operation[0])];
        if cycles > budget - used {
            break;
        }
        step(bank, &mut butterfly, &mut inverse, operation);
        ran += 1;
        used += cycles;
    }
    (ran, used)
}

fn step(
    bank: &mut TbBank,
    butterfly: &mut Kept<false>,
    inverse: &mut Kept<true>,
    operation: &[u8],
) {
    let TbBank { general, b, ib, .. } = bank;
    let [kind, r1, r2, r3] = array::from_fn(|i| operation[i]);
    // Operands that are not in use are any registers.
    let [second, third] = [r2, r3].map(|number| general[usize::from(number % 16)]);
    let result = match kind {
        1 => butterfly.send(b, second),
        2 => inverse.send(ib, second),
        3 => inverse.send(ib, second & third),
        4 => butterfly.send(b, second) & third,
        5 => return load(if r1 < 3 { b } else { ib }, r1, [second, third]),
        6 => compress(third, second),
        7 => expand(third, second),
        8 => return *ib = registers_of(&by_digits(third).inverse),
        9 => return *b = registers_of(&by_digits(third).butterfly),
        _ => group_by(compress)(third, second),
    };
    general[usize::from(r1 % 16)] = result;
}

/// Kind 5: the first two registers if r1 is odd, else the third.
fn load(registers: &mut [u64; 3], r1: u8, [second, third]: [u64; 2]) {
    if r1 % 2 == 1 {
        (registers[0], registers[1]) = (second, third);
    } else {
        registers[2] = second;
    }
}

/// A network kept prepared, with the registers that it is for.
struct Kept<const RISING: bool> {
    registers: [u64; 3],
    swaps: [u64; STAGES],
}

impl<const RISING: bool> Kept<RISING> {
    fn of(registers: [u64; 3]) -> Self {
        let stages = array::from_fn(|i| (registers[i / 2] >> (i % 2 * 32)) as u32);
        let swaps = swaps_of::<RISING>(&stages);
        Kept { registers, swaps }
    }

    /// Sends a word through, where the registers may be others by now.
    fn send(&mut self, registers: &[u64; 3], word: u64) -> u64 {
        if self.registers != *registers {
            *self = Kept::of(*registers);
        }
        delta_swaps::<RISING>(&self.swaps, word)
    }
}

fn registers_of(stages: &[u32; STAGES]) -> [u64; 3] {
    array::from_fn(|i| u64::from(stages[2 * i]) | u64::from(stages[2 * i + 1]) << 32)
}

#[cfg(test)]
mod tests {
    use super::*;
    use conformance::programs::{bank, cycles, damage, program};
    use conformance::samples::Random;
    use conformance::unit::{self, lent, Bank};

    /// Lists as they are and damaged, in turns that are enough or not: of what is left, of
    /// any other part, or with another byte. The answer of `check` is the model's.
    #[test]
    fn answers_as_the_model_does() {
        let mut random = Random::default();
        for _ in 0..10_000 {
            let mut bank = bank(&mut random);
            let operations = random.below(9);
            let mut list = program(&mut random, operations);
            if random.below(4) == 0 {
                damage(&mut random, &mut list);
            }
            let most = cycles(&list) + 2;
            check(&mut bank, &list, random.below(most), false);
            for _ in 0..3 {
                let length = list.len();
                let mut rest = match random.below(4) {
                    0 => list[random.below(length as u32 + 1) as usize..].to_vec(),
                    _ => list[length.saturating_sub(bank.left as usize)..].to_vec(),
                };
                if random.below(4) == 0 {
                    damage(&mut random, &mut rest);
                }
                let continues = random.below(8) != 0;
                check(&mut bank, &rest, random.below(most), continues);
            }
        }
    }

    fn check(bank: &mut Bank, list: &[u8], budget: u32, continues: bool) {
        let mut peers = lent(bank);
        let (peer, answer) = if continues {
            let peer = continue_run(&mut peers, list, budget);
            (peer, unit::continue_run(bank, list, budget))
        } else {
            (run(&mut peers, list, budget), unit::run(bank, list, budget))
        };
        let result = answer.result;
        let expected = (answer.refusal, result.end as u8, result.ran, result.cycles);
        let end = peer.end;
        assert_eq!((peer.refusal, end, peer.ran, peer.cycles), expected);
        assert!(peers == lent(bank), "{list:?} {budget} {continues}");
    }
}
