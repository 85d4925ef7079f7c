//! Damaged operations and lists get the lowest number that applies, zeros for
//! the rest, and leave the bank as it was, but for the status bit of a refused run.

use conformance::programs::{bank, damage, each_form, program, refusal, Form, FORMS, LONGEST};
use conformance::samples::Random;
use conformance::unit::{
    assert_number, assert_run_number, operate, read, run, with_status, write, Bank, Operation,
};

const BUDGETS: [u32; 5] = [0, 1, 2, 3, u32::MAX];

/// A register in use above 15; refusal 8.
const BEYOND: Operation = [3, 1, 2, 16];

/// No kind, whatever the registers; refusal 7.
const NO_KINDS: [Operation; 5] = [
    [0, 0, 0, 0],
    [11, 1, 2, 3],
    [255, 16, 16, 16],
    [5, 0, 2, 3],
    [5, 5, 16, 16],
];

/// Its status bits 0 to 2 are zero, so that each would be seen to be set.
fn some_bank() -> Bank {
    let mut bank = bank(&mut Random::default());
    bank.status &= !0b111;
    bank
}

/// Checks an operation's number, alone and as a list.
fn assert_operation(number: u8, bank: &Bank, operation: Operation) {
    assert_number(number, bank, |bank| operate(bank, operation));
    assert_list(number, bank, &operation);
}

/// Checks a list's number, with a budget for nothing and one for all.
fn assert_list(number: u8, bank: &Bank, list: &[u8]) {
    for budget in [0, u32::MAX] {
        assert_run_number(number, bank, list, budget);
    }
}

#[test]
fn every_other_kind_is_refusal_7_whatever_the_registers() {
    let bank = some_bank();
    for kind in (11..=255).chain([0]) {
        for byte in [0, 1, 15, 16, 255] {
            assert_operation(7, &bank, [kind, byte, byte, byte]);
        }
    }
}

#[test]
fn every_other_r1_of_kind_5_is_refusal_7_whatever_the_registers() {
    let bank = some_bank();
    for r1 in (5..=255).chain([0]) {
        for byte in [0, 1, 15, 16, 255] {
            assert_operation(7, &bank, [5, r1, byte, byte]);
        }
    }
}

#[test]
fn every_register_in_use_above_15_is_refusal_8() {
    let bank = some_bank();
    for form in &FORMS {
        for place in form.places() {
            for number in 0..=255 {
                let mut operation = form.operation([1, 2, 3]);
                operation[place] = number;
                let expected = if number > 15 { 8 } else { 0 };
                assert_operation(expected, &bank, operation);
            }
        }
        assert_operation(8, &bank, form.operation([16; 3]));
        assert_operation(8, &bank, form.operation([255; 3]));
    }
}

/// "Bytes that a kind does not use are not looked at."
#[test]
fn bytes_not_used_do_not_matter() {
    let before = some_bank();
    for form in &FORMS {
        let operation = form.operation([1, 2, 3]);
        let mut expected = before;
        operate(&mut expected, operation);
        for place in form.unused_places() {
            for byte in 0..=255 {
                let mut other = operation;
                other[place] = byte;
                let (mut operated, mut ran) = (before, before);
                assert_eq!(operate(&mut operated, other).result, form.cycles);
                assert_eq!(run(&mut ran, &other, form.cycles).result.ran, 1);
                assert_eq!([operated, ran], [expected, with_status(&expected, 0b001)]);
            }
        }
    }
}

#[test]
fn each_damaged_byte_of_a_short_list() {
    let bank = some_bank();
    let list = each_form();
    for place in 0..list.len() {
        for byte in 0..=255 {
            let mut damaged = list.clone();
            damaged[place] = byte;
            let number = refusal(&damaged[place / 4 * 4..][..4]);
            assert_list(number, &bank, &damaged);
        }
    }
}

/// Lists with a damaged operation, or two, anywhere among good ones.
#[test]
fn random_lists_with_damaged_operations() {
    let mut random = Random::default();
    for _ in 0..2_000 {
        let length = 1 + random.below(12);
        let mut list = program(&mut random, length);
        for _ in 0..1 + random.below(2) {
            damage(&mut random, &mut list);
        }
        let numbers = list.chunks(4).map(refusal).filter(|&number| number != 0);
        let number = numbers.min().unwrap_or(0);
        let budget = BUDGETS[random.below(5) as usize];
        let before = bank(&mut random);
        assert_run_number(number, &before, &list, budget);
    }
}

#[test]
fn a_later_operation_with_the_lower_number_wins() {
    let bank = some_bank();
    for between in [0, 1, 5, 100, 1_022] {
        let good = program(&mut Random::default(), between);
        for no_kind in NO_KINDS {
            assert_list(7, &bank, &[&BEYOND, &good[..], &no_kind].concat());
            assert_list(7, &bank, &[&no_kind, &good[..], &BEYOND].concat());
        }
        assert_list(8, &bank, &[&BEYOND, &good[..], &BEYOND].concat());
    }
}

/// "A run's whole list is checked before its first operation."
#[test]
fn the_last_operation_is_checked_before_the_first_is_run() {
    let bank = some_bank();
    for count in [1, 2, 3, 16, 255, 256, 1_023] {
        let good = program(&mut Random::default(), count);
        for (number, damaged) in [(7, NO_KINDS[0]), (7, NO_KINDS[3]), (8, BEYOND)] {
            let list = [&good[..], &damaged].concat();
            for budget in BUDGETS {
                assert_run_number(number, &bank, &list, budget);
            }
        }
    }
}

/// Lists of this length: of good operations, of operations on registers above
/// 15, and of no operations.
fn lists(length: usize) -> [Vec<u8>; 4] {
    let operations = length.div_ceil(4);
    let mut good = program(&mut Random::default(), operations as u32);
    good.truncate(length);
    let mut beyond = BEYOND.repeat(operations);
    beyond.truncate(length);
    [good, beyond, vec![0; length], vec![255; length]]
}

#[test]
fn every_other_length_is_refusal_4_whatever_the_bytes() {
    let bank = some_bank();
    // Among them some that a narrower integer would cut to an accepted one.
    let long = [8_192, 1 << 16, (1 << 16) + 4, (1 << 16) + LONGEST, 1 << 20];
    let around = LONGEST - 8..LONGEST + 20;
    for length in (0..80).chain(around).chain(long) {
        if length % 4 == 0 && length <= LONGEST {
            continue;
        }
        for list in lists(length) {
            assert_list(4, &bank, &list);
        }
    }
}

#[test]
fn multiples_of_4_up_to_4096_are_not_refusal_4() {
    let bank = some_bank();
    for length in (0..80).step_by(4).chain([LONGEST - 4, LONGEST]) {
        let [good, beyond, zeros, ones] = lists(length);
        assert_list(0, &bank, &good);
        if length > 0 {
            assert_list(8, &bank, &beyond);
            assert_list(7, &bank, &zeros);
            assert_list(7, &bank, &ones);
        }
    }
}

/// The memory after a short part would complete it.
#[test]
fn short_parts_of_a_list_are_refusal_4() {
    let bank = some_bank();
    let list = each_form();
    for length in 0..list.len() {
        let number = if length % 4 == 0 { 0 } else { 4 };
        assert_list(number, &bank, &list[..length]);
    }
}

#[test]
fn every_other_register_is_not_read_or_written() {
    let bank = some_bank();
    for number in 0..=255 {
        let expected = if number > 15 { 8 } else { 0 };
        assert_number(expected, &bank, |bank| read(bank, number));
        assert_number(expected, &bank, |bank| write(bank, number, !0));
    }
}

/// The table's own examples: "5-byte list", "kind 0", "register 16"; and
/// "register 15 [..] accepted".
#[test]
fn examples_of_the_table_of_refusals() {
    let bank = some_bank();
    assert_list(4, &bank, &[1, 0, 0, 0, 1]);
    assert_operation(7, &bank, [0, 0, 0, 0]);
    assert_operation(8, &bank, [1, 16, 0, 0]);
    assert_operation(0, &bank, [1, 15, 15, 15]);
    let refused = NO_KINDS.iter().chain([&BEYOND]);
    assert!(refused.clone().all(|operation| refusal(operation) > 0));
    assert!(NO_KINDS
        .iter()
        .all(|operation| Form::of(operation).is_none()));
}
