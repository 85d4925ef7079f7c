//! Refusal 14 of request 10 of paper 02, "another run waits, or none does, or the list is
//! not the remainder": it comes after 4, 7 and 8, on every bank that can be lent, and such a
//! call leaves the bank as it was, but for the status bit of a refused run.

use conformance::programs::{bank, cycles, each_form, list_refusal, program, refusal};
use conformance::programs::{waiting_bank, BEYOND, FORMS, LEFT_BEYOND, LONGEST, NO_KIND};
use conformance::samples::Random;
use conformance::unit::{assert_continued_number, assert_number, assert_run_number};
use conformance::unit::{continue_run, drop_run, operate, run, Bank, End};

const BUDGETS: [u32; 5] = [0, 1, 2, 3, u32::MAX];

/// This number, or 14 if it is 0 and the call is turned back.
fn or_14(number: u8, turned_back: bool) -> u8 {
    match number {
        0 if turned_back => 14,
        _ => number,
    }
}

/// Checks that the call on the list has the numbers that it must have on this bank.
fn assert_numbers(bank: &Bank, list: &[u8]) {
    let number = list_refusal(list);
    let waits = bank.waiting != 0;
    let equal = bank.left as usize == list.len() && bank.list.starts_with(list);
    for budget in BUDGETS {
        assert_run_number(or_14(number, waits), bank, list, budget);
        assert_continued_number(or_14(number, !(waits && equal)), bank, list, budget);
    }
}

/// Lists that are refused on no bank, among them those that banks below remember.
fn good_lists() -> Vec<Vec<u8>> {
    let longest = program(&mut Random::default(), 1_024);
    let mut other = each_form();
    other[51] ^= 1;
    let lists: [&[u8]; 8] = [
        &[],
        &[1, 2, 3, 4],
        &[1, 2, 3, 5],
        &[1, 2, 3, 4, 1, 2, 3, 4],
        &each_form(),
        &other,
        &longest,
        &longest[4..],
    ];
    lists.map(<[u8]>::to_vec).into()
}

/// Lists that are refused on every bank: each number, and several at once.
fn bad_lists() -> Vec<Vec<u8>> {
    let longest = program(&mut Random::default(), 1_024);
    let both = [&BEYOND[..], &NO_KIND].concat();
    let lists: [&[u8]; 9] = [
        &[1, 2, 3],
        &[1, 2, 3, 4, 1],
        &both[..7],
        &[&longest[..], &[1, 2, 3, 4]].concat(),
        &NO_KIND,
        &BEYOND,
        &both,
        &[&longest[4..], &NO_KIND].concat(),
        &[&longest[4..], &BEYOND].concat(),
    ];
    lists.map(<[u8]>::to_vec).into()
}

/// Banks that wait and that do not, with each of these lists remembered, or more than a
/// bank can hold.
fn banks() -> Vec<Bank> {
    let mut random = Random::default();
    let mut banks = vec![Bank::default()];
    for list in [good_lists(), bad_lists()].concat() {
        let held = &list[..list.len().min(LONGEST)];
        let mut bank = waiting_bank(&mut random, held);
        bank.left = list.len() as u32;
        bank.status &= !0b111;
        banks.push(bank);
        banks.push(Bank { waiting: 0, ..bank });
    }
    let waits = banks[1];
    banks.extend(LEFT_BEYOND.map(|left| Bank { left, ..waits }));
    banks
}

/// "The lowest number that applies to any part of the call is returned": every list on
/// every bank.
#[test]
fn lists_of_every_number_on_banks_of_every_state() {
    let lists = [good_lists(), bad_lists()].concat();
    for bank in banks() {
        for list in &lists {
            assert_numbers(&bank, list);
        }
    }
}

/// "Single operations [..] are turned back", those that have a lower number by that.
#[test]
fn operations_on_banks_of_every_state() {
    for bank in banks() {
        let mut operations = vec![NO_KIND, BEYOND, [5, 0, 1, 1], [5, 5, 16, 16]];
        operations.extend(FORMS.iter().map(|form| form.operation([1, 2, 3])));
        for operation in operations {
            let number = or_14(refusal(&operation), bank.waiting != 0);
            assert_number(number, &bank, |bank| operate(bank, operation));
        }
    }
}

/// Any number but 0 waits.
#[test]
fn every_byte_waits_but_0() {
    let mut random = Random::default();
    let list = [1, 2, 3, 0, 2, 4, 5, 0];
    for waiting in 1..=255 {
        let mut bank = waiting_bank(&mut random, &list);
        bank.waiting = waiting;
        assert_number(14, &bank, |bank| operate(bank, [1, 2, 3, 4]));
        assert_run_number(14, &bank, &list, 2);
        assert_continued_number(14, &bank, &list[4..], 2);

        let mut continued = bank;
        assert_eq!(continue_run(&mut continued, &list, 1).result.ran, 1);
        assert_eq!((continued.waiting, continued.left), (1, 4));
        let end = continue_run(&mut bank, &list, 2).result.end;
        assert_eq!((end, bank.waiting, bank.left), (End::Done, 0, 8));
    }
}

/// "byte for byte": each byte of a short remainder, by every other value.
#[test]
fn each_byte_of_a_remainder() {
    let list = each_form();
    let bank = waiting_bank(&mut Random::default(), &list);
    for place in 0..list.len() {
        for byte in 0..=255 {
            let mut other = list.clone();
            other[place] = byte;
            let number = or_14(list_refusal(&other), other != list);
            assert_continued_number(number, &bank, &other, u32::MAX);
        }
    }
}

/// Each byte of the longest, and each bit of some; all other lists are good.
#[test]
fn each_byte_of_the_longest_remainder() {
    let list = [8, 2, 4, 6].repeat(1_024);
    let bank = waiting_bank(&mut Random::default(), &list);
    for place in 0..LONGEST {
        let mut other = list.clone();
        other[place] ^= 1;
        assert_continued_number(14, &bank, &other, 0);

        let mut otherwise = bank;
        otherwise.list[place] ^= 1 << (place % 8);
        assert_continued_number(14, &otherwise, &list, 0);
    }
    assert_continued_number(0, &bank, &list, 0);
}

/// Bytes that a kind does not use are compared as all others are.
#[test]
fn each_byte_that_is_not_used() {
    let bank = waiting_bank(&mut Random::default(), &each_form());
    for (turn, form) in FORMS.iter().enumerate() {
        for place in form.unused_places() {
            for bit in 0..8 {
                let mut other = each_form();
                other[4 * turn + place] ^= 1 << bit;
                assert_eq!(list_refusal(&other), 0);
                assert_continued_number(14, &bank, &other, u32::MAX);
            }
        }
    }
}

/// Every other length, though the bank's bytes agree with the list as far as it goes.
#[test]
fn each_length_but_the_remainders() {
    let mut random = Random::default();
    let longest = program(&mut random, 1_024);
    let mut bank = waiting_bank(&mut random, &longest);
    for left in [0, 4, 8, 256, 260, 2_048, 4_088, 4_092, 4_096] {
        bank.left = left as u32;
        for length in (0..=LONGEST).step_by(4) {
            let number = or_14(0, length != left);
            assert_continued_number(number, &bank, &longest[..length], 0);
        }
        for length in [left + 1, left + 2, left + 3] {
            let list = [&longest[..], &longest].concat();
            assert_continued_number(4, &bank, &list[..length], 0);
        }
    }
}

/// Of the list that was run only the end from the next operation on, and not all of it.
#[test]
fn each_other_end_of_the_list_that_was_run() {
    let mut random = Random::default();
    let list = each_form();
    for budget in 0..cycles(&list) {
        let mut bank = bank(&mut random);
        let ran = run(&mut bank, &list, budget).result.ran as usize;
        for from in 0..=FORMS.len() {
            let number = or_14(0, from != ran);
            assert_continued_number(number, &bank, &list[4 * from..], u32::MAX);
        }
        assert_run_number(14, &bank, &list[4 * ran..], u32::MAX);
    }
}

/// A bank that says that more is left than it has: no list is that.
#[test]
fn no_list_equals_more_than_4096_bytes() {
    let mut random = Random::default();
    let longest = program(&mut random, 1_024);
    let mut bank = waiting_bank(&mut random, &longest);
    for left in LEFT_BEYOND {
        bank.left = left;
        let cut = [8, 12, 13, 16, 24].map(|bits| (left as usize) & ((1 << bits) - 1));
        for length in cut.into_iter().chain([0, 4, 8, 4_092, 4_096]) {
            let list = [&longest[..], &longest].concat();
            let list = &list[..length.min(8_192)];
            assert_continued_number(or_14(list_refusal(list), true), &bank, list, u32::MAX);
        }
        let mut dropped = bank;
        drop_run(&mut dropped);
        assert_run_number(0, &dropped, &longest, 100);
    }
}

/// Nothing left, as no run leaves it: the empty list is the remainder, and is done.
#[test]
fn an_empty_remainder_is_done() {
    let mut random = Random::default();
    for budget in BUDGETS {
        let before = waiting_bank(&mut random, &[]);
        let mut bank = before;
        let answer = continue_run(&mut bank, &[], budget);
        assert_eq!((answer.refusal, answer.result.end), (0, End::Done));
        assert_eq!((answer.result.ran, answer.result.cycles), (0, 0));
        let status = before.status | 0b001;
        let expected = Bank {
            status,
            waiting: 0,
            ..before
        };
        assert_eq!(bank, expected);
        assert_continued_number(14, &before, &[1, 2, 3, 4], budget);
        assert_continued_number(7, &before, &NO_KIND, budget);
    }
}

/// A remainder that no run leaves: the list that equals it is refused as any other.
#[test]
fn a_remainder_that_is_refused() {
    let mut random = Random::default();
    for list in bad_lists() {
        let held = &list[..list.len().min(LONGEST)];
        let mut bank = waiting_bank(&mut random, held);
        bank.left = list.len() as u32;
        for budget in BUDGETS {
            assert_continued_number(list_refusal(&list), &bank, &list, budget);
        }
    }
}

/// "or none does": after a run that is done, or dropped, and on any bank that does not wait.
#[test]
fn what_does_not_wait_is_not_continued() {
    let mut random = Random::default();
    for list in good_lists() {
        let mut bank = waiting_bank(&mut random, &list);
        let mut done = bank;
        continue_run(&mut done, &list, u32::MAX);
        drop_run(&mut bank);
        for bank in [bank, done] {
            assert_continued_number(14, &bank, &list, u32::MAX);
            assert_continued_number(14, &bank, &[], 0);
            assert_run_number(0, &bank, &list, u32::MAX);
        }
    }
}

/// What is turned back while a run waits leaves nothing behind: then it is continued as if
/// nothing had been tried.
#[test]
fn nothing_is_lost_by_refused_calls() {
    let mut random = Random::default();
    for round in 0..100 {
        let list = program(&mut random, 2 + round % 20);
        let mut bank = bank(&mut random);
        let ran = run(&mut bank, &list, cycles(&list) - 1).result.ran as usize;
        let mut tried = bank;
        operate(&mut tried, [1, 2, 3, 4]);
        for other in [&list[..], &[], &NO_KIND, &BEYOND, &list[..3]] {
            assert_ne!(run(&mut tried, other, u32::MAX).refusal, 0);
            assert_ne!(continue_run(&mut tried, other, u32::MAX).refusal, 0);
        }
        for bank in [&mut bank, &mut tried] {
            assert_eq!(
                continue_run(bank, &list[4 * ran..], u32::MAX).result.end,
                End::Done
            );
        }
        bank.status |= 0b100;
        assert_eq!(tried, bank);
    }
}
