//! The register unit ("The register unit" of paper 01, requests 01, 09 and 10 of paper
//! 02).

use crate::bits::{bits_of, marked, word_of};
use crate::decoder::decode;
use crate::gather::{gather, group, scatter};
use crate::network::{butterfly, inverse, Controls};
use crate::refusal::{Answer, KIND, LENGTH, REGISTER, WAITING};
use std::array;

/// "Strips and the register unit use width 64."
const WIDTH: u32 = 64;

/// "run list [..] above 4,096 bytes"
const LONGEST: usize = 4_096;

/// "There are sixteen general registers 0 to 15 and six settings registers b1
/// to b3, ib1 to ib3, each of 64 bits, all zero when fresh." Paper 02: "The register
/// bank gains a status byte and an enable byte, both zero when fresh." "The bank
/// remembers that it waits and a copy of the operations left"; "A fresh bank does not
/// wait."
#[derive(Clone, Copy, Debug, PartialEq, Eq)]
pub struct Bank {
    /// The general registers.
    pub general: [u64; 16],
    /// b1 to b3.
    pub b: [u64; 3],
    /// ib1 to ib3.
    pub ib: [u64; 3],
    /// The status byte, as it is held.
    pub status: u8,
    /// The enable byte.
    pub enable: u8,
    /// Whether it waits: 0 if it does not.
    pub waiting: u8,
    /// How many bytes the operations left have.
    pub left: u32,
    /// Their copy, and any bytes after it.
    pub list: [u8; 4_096],
}

impl Default for Bank {
    fn default() -> Self {
        Bank {
            general: [0; 16],
            b: [0; 3],
            ib: [0; 3],
            status: 0,
            enable: 0,
            waiting: 0,
            left: 0,
            list: [0; LONGEST],
        }
    }
}

/// "An operation is four bytes: kind, r1, r2, r3."
pub type Operation = [u8; 4];

/// How a run ends.
#[derive(Clone, Copy, Debug, Default, PartialEq, Eq)]
pub enum End {
    /// It was refused.
    #[default]
    Refused,
    /// No operation is left.
    Done,
    /// "an operation is left and does not fit"
    Spent,
}

/// "It answers done or spent, the operations run, and the cycles."
#[derive(Clone, Copy, Debug, Default, PartialEq, Eq)]
pub struct Run {
    /// How it ended.
    pub end: End,
    /// The operations run.
    pub ran: u32,
    /// The cycles used.
    pub cycles: u32,
}

/// "One operation alone answers its cycles." Paper 02, of status and enable:
/// "single operations, refused or not, touch neither byte." And of a run that waits:
/// "Single operations and a new run are turned back until it is done or dropped".
///
/// ```
/// use model::unit::{operate, Bank};
///
/// // "A fresh unit's kind 1 reverses the word."
/// let mut bank = Bank::default();
/// bank.general[2] = 1;
/// assert_eq!(operate(&mut bank, [1, 0, 2, 0]).result, 1);
/// assert_eq!(bank.general[0], 1 << 63);
/// ```
pub fn operate(bank: &mut Bank, operation: Operation) -> Answer<u32> {
    let [kind, register] = conditions(&[operation]);
    Answer::of(&[kind, register, (WAITING, waits(bank))], || {
        perform(bank, operation);
        cycles(operation)
    })
}

/// "A run takes a list of operations and a budget, any 32-bit count. It goes
/// on while the next operation's cycles fit in what is left."
///
/// Paper 02: "A refused run thus touches status bit 2 and no other register".
///
/// ```
/// use model::unit::{run, status, Bank, End, Run};
///
/// // Rows 10 and 10b of paper 01.
/// let list = [8, 0, 0, 3, 3, 1, 2, 3];
/// for (budget, end, ran, register_1) in [(3, End::Done, 2, 0x1A), (2, End::Spent, 1, 0)] {
///     let mut bank = Bank::default();
///     (bank.general[2], bank.general[3]) = (0xB6, 0xAD);
///     let cycles = budget;
///     assert_eq!(run(&mut bank, &list, budget).result, Run { end, ran, cycles });
///     assert_eq!(bank.general[1], register_1);
///     assert_eq!(status(&bank), if end == End::Done { 1 } else { 2 });
/// }
/// ```
pub fn run(bank: &mut Bank, list: &[u8], budget: u32) -> Answer<Run> {
    let turned_back = waits(bank);
    carry_out(bank, list, budget, turned_back)
}

/// "After spent, a run may now be continued with a fresh budget." "to continue, the
/// host lends those again": "A continued list must equal the remembered remainder byte
/// for byte."
///
/// ```
/// use model::unit::{continue_run, run, status, waits, write, Bank, End, Run};
///
/// // Row 10b of paper 01, and a load while it waits.
/// let list = [8, 0, 0, 3, 3, 1, 2, 3];
/// let mut bank = Bank::default();
/// (bank.general[2], bank.general[3]) = (0xB6, 0xAD);
/// run(&mut bank, &list, 2);
/// assert!(waits(&bank));
/// write(&mut bank, 2, 0xFF);
///
/// assert_eq!(continue_run(&mut bank, &list, 1).refusal, 14);
/// let (end, ran, cycles) = (End::Done, 1, 1);
/// assert_eq!(continue_run(&mut bank, &list[4..], 1).result, Run { end, ran, cycles });
/// assert_eq!((bank.general[1], status(&bank)), (0x1F, 0b111));
/// assert!(!waits(&bank));
/// ```
pub fn continue_run(bank: &mut Bank, list: &[u8], budget: u32) -> Answer<Run> {
    let turned_back = !waits(bank) || is_no_remainder(bank, list);
    carry_out(bank, list, budget, turned_back)
}

/// "dropping is always allowed and changes only that the bank no longer waits"
///
/// ```
/// use model::unit::{drop_run, Bank};
///
/// let mut bank = Bank { waiting: 7, left: 4, ..Bank::default() };
/// drop_run(&mut bank);
/// assert_eq!(bank, Bank { left: 4, ..Bank::default() });
/// ```
pub fn drop_run(bank: &mut Bank) {
    bank.waiting = 0;
}

/// Whether a run waits.
pub fn waits(bank: &Bank) -> bool {
    bank.waiting != 0
}

/// "the remembered remainder", if the bank has room for as much.
fn remainder(bank: &Bank) -> Option<&[u8]> {
    bank.list.get(..bank.left as usize)
}

/// Whether the list is not "the remembered remainder".
pub(crate) fn is_no_remainder(bank: &Bank, list: &[u8]) -> bool {
    remainder(bank) != Some(list)
}

/// A run, or a continued one: "the status bits of Req 09 count for continued runs."
fn carry_out(bank: &mut Bank, list: &[u8], budget: u32, turned_back: bool) -> Answer<Run> {
    let conditions = list_conditions(list, turned_back);
    let answer = Answer::of(&conditions, || {
        perform_each(bank, &operations_of(list), budget)
    });
    end(bank, list, answer.result);
    answer
}

/// The operations of a list.
pub(crate) fn operations_of(list: &[u8]) -> Vec<Operation> {
    let operations = list.chunks_exact(4);
    operations.map(|o| [o[0], o[1], o[2], o[3]]).collect()
}

/// What a run of this list is refused by, turned back by 14 or not.
pub(crate) fn list_conditions(list: &[u8], turned_back: bool) -> [(u8, bool); 4] {
    let [kind, register] = conditions(&operations_of(list));
    let length = list.len() % 4 != 0 || list.len() > LONGEST;
    [(LENGTH, length), kind, register, (WAITING, turned_back)]
}

/// Goes on while the next operation fits.
pub(crate) fn perform_each(bank: &mut Bank, operations: &[Operation], budget: u32) -> Run {
    let (mut ran, mut used) = (0, 0);
    for &operation in operations {
        if cycles(operation) > budget - used {
            let (end, cycles) = (End::Spent, used);
            return Run { end, ran, cycles };
        }
        perform(bank, operation);
        ran += 1;
        used += cycles(operation);
    }
    let (end, cycles) = (End::Done, used);
    Run { end, ran, cycles }
}

/// What the end of a run of this list leaves in the bank.
pub(crate) fn end(bank: &mut Bank, list: &[u8], run: Run) {
    set_status(bank, run.end);
    remember(bank, list, run);
}

/// "A run that ends done sets status bit 0, one that ends spent sets bit 1, and a
/// refused run sets bit 2."
fn set_status(bank: &mut Bank, end: End) {
    let mut bits = byte_bits(bank.status);
    match end {
        End::Done => bits[0] = true,
        End::Spent => bits[1] = true,
        End::Refused => bits[2] = true,
    }
    bank.status = byte_of(&bits);
}

/// What the bank remembers after a run of this list.
fn remember(bank: &mut Bank, list: &[u8], run: Run) {
    match run.end {
        End::Refused => {}
        End::Done => bank.waiting = 0,
        End::Spent => {
            let operations_left = &list[4 * run.ran as usize..];
            bank.waiting = 1;
            bank.left = operations_left.len() as u32;
            for (place, &byte) in operations_left.iter().enumerate() {
                bank.list[place] = byte;
            }
        }
    }
}

/// "The host may also read or write one general register by number; a read
/// answers the value"
pub fn read(bank: &Bank, number: u8) -> Answer<u64> {
    let conditions = [(REGISTER, number > 15)];
    Answer::of(&conditions, || bank.general[usize::from(number)])
}

/// "a write nothing more than that it was carried out". Paper 02: "While it waits, the
/// host may write a general register."
pub fn write(bank: &mut Bank, number: u8, value: u64) -> Answer<()> {
    Answer::of(&[(REGISTER, number > 15)], || {
        bank.general[usize::from(number)] = value;
    })
}

/// "Status bits 3 to 7 read zero"
///
/// ```
/// use model::unit::{status, Bank};
///
/// let bank = Bank { status: 0b1111_1101, ..Bank::default() };
/// assert_eq!(status(&bank), 0b101);
/// ```
pub fn status(bank: &Bank) -> u8 {
    let mut bits = byte_bits(bank.status);
    bits[3..=7].fill(false);
    byte_of(&bits)
}

/// "the host writes the enable byte"
///
/// ```
/// use model::unit::{enable, Bank};
///
/// let mut bank = Bank { enable: 0b101, ..Bank::default() };
/// enable(&mut bank, 0b1000_0001);
/// assert_eq!(bank.enable, 0b1000_0001);
/// ```
pub fn enable(bank: &mut Bank, byte: u8) {
    bank.enable = byte;
}

/// "Writing a byte to acknowledge clears the status bits where that byte has ones."
///
/// ```
/// use model::unit::{acknowledge, Bank};
///
/// let mut bank = Bank { status: 0b011, ..Bank::default() };
/// acknowledge(&mut bank, 0b110);
/// assert_eq!(bank.status, 0b001);
/// ```
pub fn acknowledge(bank: &mut Bank, byte: u8) {
    let mut bits = byte_bits(bank.status);
    for p in marked(&byte_bits(byte)) {
        bits[p] = false;
    }
    bank.status = byte_of(&bits);
}

/// "The interrupt line is high exactly when some bit is one in both bytes." Of the
/// status byte these are the bits that it reads.
///
/// ```
/// use model::unit::{interrupt, Bank};
///
/// let line = |status, enable| interrupt(&Bank { status, enable, ..Bank::default() });
/// assert!(line(0b011, 0b110));
/// assert!(!line(0b011, 0b100));
/// assert!(!line(0b1000, 0b1000));
/// ```
pub fn interrupt(bank: &Bank) -> bool {
    let (status, enable) = (byte_bits(status(bank)), byte_bits(bank.enable));
    (0..8).any(|p| status[p] && enable[p])
}

/// The bits of a byte, bit 0 first.
fn byte_bits(byte: u8) -> Vec<bool> {
    bits_of(8, byte.into())
}

/// The byte with these bits.
fn byte_of(bits: &[bool]) -> u8 {
    word_of(bits) as u8
}

/// "kind not 1 to 10, or in kind 5 r1 not 1 to 4"; "a register number in use
/// above 15"
fn conditions(operations: &[Operation]) -> [(u8, bool); 2] {
    let of_no_kind = |&[kind, r1, ..]: &Operation| match kind {
        5 => !(1..=4).contains(&r1),
        _ => !(1..=10).contains(&kind),
    };
    let beyond = |&operation: &Operation| in_use(operation).into_iter().any(|r| r > 15);
    [
        (KIND, operations.iter().any(of_no_kind)),
        (REGISTER, operations.iter().any(beyond)),
    ]
}

/// The register numbers in use, by the table. "Bytes that a kind does not use
/// are not looked at."
fn in_use([kind, r1, r2, r3]: Operation) -> Vec<u8> {
    match (kind, r1) {
        (1 | 2, _) => vec![r1, r2],
        (5, 1 | 3) => vec![r2, r3],
        (5, 2 | 4) => vec![r2],
        (8 | 9, _) => vec![r3],
        (3 | 4 | 6 | 7 | 10, _) => vec![r1, r2, r3],
        _ => vec![],
    }
}

/// The table's figures.
fn cycles([kind, ..]: Operation) -> u32 {
    match kind {
        1..=5 => 1,
        8 | 9 => 2,
        _ => 3,
    }
}

/// What the table says that an operation does. "Operands are read before the
/// result is written." Paper 02, of the count of marked lines: "Kinds 6, 7 and 10
/// of the register unit do not store it."
fn perform(bank: &mut Bank, [kind, r1, r2, r3]: Operation) {
    let Bank { general, b, ib, .. } = *bank;
    let read = |number: u8| general[usize::from(number)];
    let through_b = |word| butterfly(WIDTH, &stages_in(b), word).result;
    let through_ib = |word| inverse(WIDTH, &stages_in(ib), word).result;
    let mut write = |word| bank.general[usize::from(r1)] = word;
    match (kind, r1) {
        (1, _) => write(through_b(read(r2))),
        (2, _) => write(through_ib(read(r2))),
        (3, _) => write(through_ib(read(r2) & read(r3))),
        (4, _) => write(through_b(read(r2)) & read(r3)),
        (5, 1) => (bank.b[0], bank.b[1]) = (read(r2), read(r3)),
        (5, 2) => bank.b[2] = read(r2),
        (5, 3) => (bank.ib[0], bank.ib[1]) = (read(r2), read(r3)),
        (5, _) => bank.ib[2] = read(r2),
        (6, _) => write(gather(WIDTH, read(r3), read(r2)).result.word),
        (7, _) => write(scatter(WIDTH, read(r3), read(r2)).result.word),
        (8, _) => bank.ib = registers_of(decode(WIDTH, read(r3)).result.inverse),
        (9, _) => bank.b = registers_of(decode(WIDTH, read(r3)).result.butterfly),
        _ => write(group(WIDTH, read(r3), read(r2)).result.word),
    }
}

/// "b1 holds column 1 in its low half and column 2 in its high half; b2 and b3
/// go on so, and ib likewise."
fn stages_in(registers: [u64; 3]) -> Controls {
    array::from_fn(|i| (registers[i / 2] >> (i % 2 * 32)) as u32)
}

/// The registers that hold these stages.
fn registers_of(stages: Controls) -> [u64; 3] {
    array::from_fn(|i| u64::from(stages[2 * i]) | u64::from(stages[2 * i + 1]) << 32)
}
