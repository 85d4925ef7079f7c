//! A register bank and what was run on it, as they are printed.

use crate::number::{hex, list};
use std::iter::zip;
use tigbayon::{Bank, End, Run};

/// What the bits of the status byte tell of a run, from bit 0.
const STATUS_BITS: [&str; 3] = ["done", "spent", "refused"];

/// The answers, then what they left in the bank: of the registers those that are not as
/// they were before.
pub fn told(answers: impl Iterator<Item = String>, bank: &Bank, before: &Bank) -> String {
    let left = registers(bank, before) + &remainder(bank);
    let lines = answers.chain([polled(bank), left]);
    Vec::from_iter(lines).join("\n")
}

/// How a run ended.
pub fn ended(run: Run) -> String {
    let end = match run.end {
        End::Done => "done",
        End::Spent => "spent",
    };
    format!("{end}, {} run, {} cycles", run.ran, run.cycles)
}

/// The status byte as it reads, and the interrupt line.
pub fn polled(bank: &Bank) -> String {
    let status = bank.status();
    let bits = (0..).zip(STATUS_BITS);
    let ones = bits.filter(|(bit, _)| status >> bit & 1 == 1);
    let names = Vec::from_iter(ones.map(|(_, name)| name)).join(", ");
    let line = if bank.interrupt() { "high" } else { "low" };
    let status = hex(status.into());
    format!("status {status} ({names}), interrupt line {line}")
}

/// A line for each register that is not as it was before.
fn registers(bank: &Bank, before: &Bank) -> String {
    let groups: [(&str, usize, &[u64], &[u64]); 3] = [
        ("register ", 0, &bank.general, &before.general),
        ("b", 1, &bank.b, &before.b),
        ("ib", 1, &bank.ib, &before.ib),
    ];
    let mut lines = String::new();
    for (name, first, values, before) in groups {
        let numbered = (first..).zip(zip(values, before));
        for (number, (&value, _)) in numbered.filter(|(_, (value, before))| value != before) {
            lines += &format!("{name}{number} = {}\n", hex(value));
        }
    }
    lines
}

/// If the run waits, a line for how much is left, and one for the operations.
fn remainder(bank: &Bank) -> String {
    let Some(bytes) = bank.remainder() else {
        return String::new();
    };
    let operations = list(bytes.iter().map(u8::to_string));
    let (left, length) = (bytes.len() / 4, bytes.len());
    format!("waits, {left} left to run, {length} bytes\nremainder {operations}\n")
}

#[cfg(test)]
mod tests {
    use super::*;

    /// Bits 3 to 7 are not shown, and do not raise the line.
    #[test]
    fn the_status_is_shown_as_it_reads() {
        for (status, enable, shown, line) in [
            (0x1, 0x6, "0x1 (done)", "low"),
            (0x5, 0x4, "0x5 (done, refused)", "high"),
            (0xFF, 0x2, "0x7 (done, spent, refused)", "high"),
            (0xFA, 0xF8, "0x2 (spent)", "low"),
        ] {
            let bank = Bank {
                status,
                enable,
                ..Bank::default()
            };
            let expected = format!("status {shown}, interrupt line {line}");
            assert_eq!(polled(&bank), expected);
        }
    }
}
