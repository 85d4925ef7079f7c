//! Banks, operations and lists of them, the same in every run.

use crate::samples::Random;
use crate::unit::{Bank, End, Operation};

/// The most bytes of a list.
pub const LONGEST: usize = 4_096;

/// A kind of operation, in kind 5 by its r1: which of r1, r2, r3 are numbers of
/// registers, and the cycles.
pub struct Form {
    /// The first byte.
    pub kind: u8,
    /// In kind 5, the second byte.
    pub r1: Option<u8>,
    /// Whether r1, r2, r3 are in use as registers.
    pub registers: [bool; 3],
    /// The table's figure.
    pub cycles: u32,
}

/// Every form, by paper 01's table.
pub const FORMS: [Form; 13] = [
    form(1, None, [true, true, false], 1),
    form(2, None, [true, true, false], 1),
    form(3, None, [true, true, true], 1),
    form(4, None, [true, true, true], 1),
    form(5, Some(1), [false, true, true], 1),
    form(5, Some(2), [false, true, false], 1),
    form(5, Some(3), [false, true, true], 1),
    form(5, Some(4), [false, true, false], 1),
    form(6, None, [true, true, true], 3),
    form(7, None, [true, true, true], 3),
    form(8, None, [false, false, true], 2),
    form(9, None, [false, false, true], 2),
    form(10, None, [true, true, true], 3),
];

/// No kind, refusal 7, and a register in use above 15, refusal 8.
pub const NO_KIND: Operation = [0, 16, 16, 16];
/// See [`NO_KIND`].
pub const BEYOND: Operation = [3, 1, 2, 16];

/// More bytes left than any remainder has; some of them would be a length that one has if
/// they were cut to fewer bits.
pub const LEFT_BEYOND: [u32; 12] = [
    4_097,
    4_100,
    8_192,
    8_192 + 4,
    1 << 16,
    (1 << 16) + 4,
    (1 << 16) + 4_096,
    1 << 24,
    1 << 31,
    (1 << 31) + 8,
    u32::MAX - 3,
    u32::MAX,
];

/// A list for each end of a run with a budget of 0.
pub const ENDS: [(End, &[u8]); 3] = [
    (End::Done, &[]),
    (End::Spent, &[1, 0, 0, 0]),
    (End::Refused, &[0, 0, 0, 0]),
];

const fn form(kind: u8, r1: Option<u8>, registers: [bool; 3], cycles: u32) -> Form {
    Form {
        kind,
        r1,
        registers,
        cycles,
    }
}

impl Form {
    /// The form of an operation, if it has one.
    pub fn of(operation: &[u8]) -> Option<&'static Form> {
        let fits =
            |form: &&Form| operation[0] == form.kind && form.r1.is_none_or(|r1| operation[1] == r1);
        FORMS.iter().find(fits)
    }

    /// Places of the operation's bytes that hold numbers of registers.
    pub fn places(&self) -> impl Iterator<Item = usize> + '_ {
        (1..4).filter(|place| self.registers[place - 1])
    }

    /// Places of bytes that are not used.
    pub fn unused_places(&self) -> impl Iterator<Item = usize> + '_ {
        let first = if self.r1.is_some() { 2 } else { 1 };
        (first..4).filter(|place| !self.registers[place - 1])
    }

    /// An operation of this form with r1, r2, r3 from these bytes, so far as
    /// its form leaves them open.
    pub fn operation(&self, [r1, r2, r3]: [u8; 3]) -> Operation {
        [self.kind, self.r1.unwrap_or(r1), r2, r3]
    }
}

/// The number that one operation is refused by, or 0.
pub fn refusal(operation: &[u8]) -> u8 {
    match Form::of(operation) {
        None => 7,
        Some(form) if form.places().any(|place| operation[place] > 15) => 8,
        Some(_) => 0,
    }
}

/// The number that a list is refused by on any bank, or 0.
pub fn list_refusal(list: &[u8]) -> u8 {
    if list.len() % 4 != 0 || list.len() > LONGEST {
        return 4;
    }
    let numbers = list.chunks(4).map(refusal).filter(|&number| number != 0);
    numbers.min().unwrap_or(0)
}

/// The sum of the cycles of a list's operations, which have forms.
pub fn cycles(list: &[u8]) -> u32 {
    let operations = list.chunks_exact(4);
    let figures = operations.map(|operation| Form::of(operation).map_or(0, |form| form.cycles));
    figures.sum()
}

/// A list of operations of these cycles, each another one.
pub fn by_figures(figures: &[u32]) -> Vec<u8> {
    let operation = |(turn, figure): (usize, &u32)| {
        let number = (turn % 14) as u8;
        match figure {
            1 => [1, number, 14, 0],
            2 => [9, 0, 0, number],
            3 => [10, number, 14, 15],
            _ => panic!("no operation has {figure} cycles"),
        }
    };
    figures.iter().enumerate().flat_map(operation).collect()
}

/// A bank of random, sparse and dense words, and any two bytes. It does not wait,
/// whatever it remembers.
pub fn bank(random: &mut Random) -> Bank {
    let mut word = || match random.below(4) {
        0 => random.word() & random.word() & random.word(),
        1 => random.word() | random.word() | random.word(),
        _ => random.word(),
    };
    Bank {
        general: std::array::from_fn(|_| word()),
        b: std::array::from_fn(|_| word()),
        ib: std::array::from_fn(|_| word()),
        status: random.byte(),
        enable: random.byte(),
        waiting: 0,
        left: random.word() as u32 >> random.below(32),
        list: any_list(random),
    }
}

/// Any bytes.
fn any_list(random: &mut Random) -> [u8; LONGEST] {
    let mut list = [0; LONGEST];
    for bytes in list.chunks_exact_mut(8) {
        bytes.copy_from_slice(&random.word().to_le_bytes());
    }
    list
}

/// Such a bank that waits, with this remainder and any bytes after it.
pub fn waiting_bank(random: &mut Random, remainder: &[u8]) -> Bank {
    let mut bank = bank(random);
    bank.waiting = random.pick(&[1, 1, 2, 128, 255]);
    bank.left = remainder.len() as u32;
    bank.list[..remainder.len()].copy_from_slice(remainder);
    bank
}

/// So many operations of random forms. Bytes not used are any bytes. The
/// registers are few or all, but most lists leave some unwritten: no operation
/// makes ones, so that a long list would end in zeros.
pub fn program(random: &mut Random, operations: u32) -> Vec<u8> {
    const WRITTEN_AND_READ: [[u32; 2]; 4] = [[1, 2], [3, 4], [8, 16], [16, 16]];
    let [written, read] = WRITTEN_AND_READ[random.below(4) as usize];
    let mut operation = |_| {
        let form = &FORMS[random.below(13) as usize];
        let mut bytes = [written, read, read].map(|bound| random.below(bound) as u8);
        for place in form.unused_places() {
            bytes[place - 1] = random.byte();
        }
        form.operation(bytes)
    };
    (0..operations).flat_map(&mut operation).collect()
}

/// Makes a byte of the list, if it has any, another one.
pub fn damage(random: &mut Random, list: &mut [u8]) {
    if !list.is_empty() {
        list[random.below(list.len() as u32) as usize] = random.byte();
    }
}

/// One operation of each form, on registers that differ where they can.
pub fn each_form() -> Vec<u8> {
    let operations = FORMS.iter().map(|form| form.operation([1, 2, 3]));
    operations.flatten().collect()
}
