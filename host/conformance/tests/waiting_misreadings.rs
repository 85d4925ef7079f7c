//! Misreadings of request 10 of paper 02, a load while a run is waiting: the library has
//! none of them, and each would be seen, on exactly the calls that are named.

use conformance::programs::{each_form, refusal, ENDS, FORMS};
use conformance::unit::{acknowledge, enable, interrupt, operate, read, run, status, write};
use conformance::unit::{continue_run, drop_run, status_bit, Bank, End, Run};

/// Kinds 8, 3, 6 and 10, of 2, 1, 3 and 3 cycles. The first two are rows 10 and 10b.
const LIST: [u8; 16] = [8, 0, 0, 3, 3, 1, 2, 3, 6, 4, 2, 3, 10, 5, 2, 3];
const CYCLES: [u32; 4] = [2, 1, 3, 3];

/// By this budget the first is run and the others are left.
const FIRST: u32 = 2;

/// The unit of rows 10 and 10b.
fn unit() -> Bank {
    let mut bank = Bank::default();
    bank.general[2] = 0xB6;
    bank.general[3] = 0xAD;
    bank
}

/// This unit after the list is run with this budget.
fn waiting(budget: u32) -> Bank {
    let mut bank = unit();
    run(&mut bank, &LIST, budget);
    bank
}

/// How many operations of the list, from this one on, fit in a budget.
fn fitting(from: usize, budget: u32) -> usize {
    let sum_to = |to: &usize| CYCLES[from..*to].iter().sum::<u32>() <= budget;
    (from..=4).filter(sum_to).count() - 1
}

/// The operations that have run after a budget that leaves some, and after another by which
/// the rest is continued.
fn in_two(first: u32, second: u32) -> (usize, usize) {
    let mut bank = unit();
    let one = run(&mut bank, &LIST, first).result.ran as usize;
    let other = continue_run(&mut bank, &LIST[4 * one..], second).result;
    assert_eq!(other.end == End::Done, bank.waiting == 0);
    (one, one + other.ran as usize)
}

/// Every two budgets: the first leaves something, the second is at most enough for all.
fn budgets() -> impl Iterator<Item = (u32, u32)> {
    (0..9).flat_map(|first| (0..=9).map(move |second| (first, second)))
}

/// Checks on how many of these 90 another reading of the budget is seen, by the operations
/// that it says have run after the second; it gets the first ones, both budgets, and the
/// cycles used by then.
fn assert_seen_in_two(seen: usize, misread: fn(usize, u32, u32, u32) -> usize) {
    let others = budgets().filter(|&(first, second)| {
        let (one, all) = in_two(first, second);
        assert_eq!((one, all), (fitting(0, first), one + fitting(one, second)));
        let used = CYCLES[..one].iter().sum();
        all != one + misread(one, first, second, used)
    });
    assert_eq!(others.count(), seen);
}

/// "with a fresh budget": what was left of the first is not added to it.
#[test]
fn what_was_left_of_the_budget_is_not_added() {
    assert_seen_in_two(13, |one, first, second, used| {
        fitting(one, first - used + second)
    });
}

/// Nor is what the first operations used taken from it.
#[test]
fn what_was_used_is_not_taken_from_the_budget() {
    assert_seen_in_two(42, |one, _, second, used| {
        fitting(one, second.saturating_sub(used))
    });
}

/// Nor is the first budget, as if the second were one for the whole run.
#[test]
fn the_budget_is_not_for_the_whole_run() {
    assert_seen_in_two(50, |one, first, second, _| {
        fitting(one, second.saturating_sub(first))
    });
}

/// "a copy of the operations left": not the whole list, nor the operation last run with
/// them, nor only those after the one that did not fit.
#[test]
fn the_remainder_begins_with_the_operation_that_did_not_fit() {
    for first in 0..9 {
        let ran = fitting(0, first);
        for from in 0..=4 {
            let mut bank = waiting(first);
            let number = continue_run(&mut bank, &LIST[4 * from..], 9).refusal;
            assert_eq!(number, if from == ran { 0 } else { 14 });
        }
        let bank = waiting(first);
        assert_eq!(bank.left as usize, 16 - 4 * ran);
        assert_eq!(bank.list[..bank.left as usize], LIST[4 * ran..]);
        // The whole list would be 16 bytes, as many as it is if nothing was run.
        assert_eq!(bank.left == 16, first < 2);
    }
}

/// Nor is it the operations that were run.
#[test]
fn the_operations_run_are_not_remembered() {
    let bank = waiting(3);
    assert_eq!(bank.list[..8], LIST[8..]);
    assert_ne!(bank.list[..8], LIST[..8]);
}

/// The answer is "the operations run, and the cycles", of this call: not those of the calls
/// before as well, seen wherever something was run before.
#[test]
fn answers_are_not_of_all_parts() {
    for (first, second) in budgets() {
        let mut bank = unit();
        let one = run(&mut bank, &LIST, first).result;
        let other = continue_run(&mut bank, &LIST[4 * one.ran as usize..], second).result;
        let [from, to] = [one.ran, one.ran + other.ran].map(|ran| ran as usize);
        assert_eq!(other.cycles, CYCLES[from..to].iter().sum());
        let misread = (one.ran + other.ran, one.cycles + other.cycles);
        assert_eq!((other.ran, other.cycles) != misread, one.ran > 0);
    }
}

/// What register 1 and the one written are, after a value is written into that one while the
/// list, of which kind 3 is next, waits, and kind 3 is continued.
fn after_a_load(number: usize, value: u64) -> [u64; 2] {
    let mut bank = waiting(FIRST);
    assert_eq!(write(&mut bank, number as u8, value).refusal, 0);
    assert_eq!(continue_run(&mut bank, &LIST[4..], 1).result.ran, 1);
    [bank.general[1], bank.general[number]]
}

/// Checks that another reading of such a load of 0xFF is seen exactly for these registers.
fn assert_load_seen(seen: &[usize], misread: fn(usize) -> [u64; 2]) {
    let others = (0..16).filter(|&number| after_a_load(number, 0xFF) != misread(number));
    assert_eq!(others.collect::<Vec<_>>(), seen);
}

/// Kind 3 of these two words by the settings of 0xAD.
fn gathered(word: u64, mask: u64) -> u64 {
    let mut bank = unit();
    operate(&mut bank, [8, 0, 0, 3]);
    (bank.general[2], bank.general[3]) = (word, mask);
    operate(&mut bank, [3, 1, 2, 3]);
    bank.general[1]
}

/// What a register of the unit holds before.
fn held(number: usize) -> u64 {
    unit().general[number]
}

/// "The operations still to come see that value": the registers are not those that the run
/// left, which would be seen in each but the one that the operation writes.
#[test]
fn a_load_is_not_undone() {
    assert_eq!(after_a_load(2, 0xFF), [0x1F, 0xFF]);
    let all_but_1: Vec<usize> = (0..16).filter(|&number| number != 1).collect();
    assert_load_seen(&all_but_1, |number| match number {
        1 => [0x1A; 2],
        _ => [0x1A, held(number)],
    });
}

/// "just as if the write stood in the list at that point": it does not come when the list
/// is done, which would be seen in what the operations read and write.
#[test]
fn a_load_does_not_wait_for_the_end() {
    assert_load_seen(&[1, 2, 3], |number| match number {
        1 => [0xFF; 2],
        _ => [0x1A, 0xFF],
    });
}

/// Nor does it come before the operations that were run: these are not run again. Kind 8 by
/// another mask would be seen.
#[test]
fn a_load_does_not_come_before_the_list() {
    assert_load_seen(&[3], |number| {
        let mut bank = unit();
        bank.general[number] = 0xFF;
        run(&mut bank, &LIST, 3);
        [bank.general[1], bank.general[number]]
    });
    assert_ne!(gathered(0xB6, 0xFF), 0xB6);
    assert_eq!(after_a_load(3, 0xFF), [gathered(0xB6, 0xFF), 0xFF]);
}

/// A load is no operation: it has no cycles, and is not counted.
#[test]
fn a_load_is_free() {
    let mut bank = waiting(FIRST);
    for value in 0..100 {
        write(&mut bank, 2, value);
    }
    let answer = continue_run(&mut bank, &LIST[4..], 7).result;
    let (end, ran, cycles) = (End::Done, 3, 7);
    assert_eq!(answer, Run { end, ran, cycles });
}

/// "Single operations [..] are turned back", whatever they would do, and are no loads: each
/// would be seen in its cycles.
#[test]
fn single_operations_are_no_loads() {
    for form in &FORMS {
        let mut bank = waiting(FIRST);
        let answer = operate(&mut bank, form.operation([1, 2, 3]));
        assert_eq!((answer.refusal, answer.result), (14, 0));
        assert_eq!(bank, waiting(FIRST));
        drop_run(&mut bank);
        let answer = operate(&mut bank, form.operation([1, 2, 3]));
        assert_eq!((answer.refusal, answer.result), (0, form.cycles));
    }
}

/// What is turned back are "Single operations and a new run": the host reads, writes and
/// polls as ever.
#[test]
fn no_other_call_is_turned_back() {
    for number in 0..=255 {
        let mut bank = waiting(FIRST);
        let expected = if number > 15 { 8 } else { 0 };
        assert_eq!(read(&bank, number).refusal, expected);
        assert_eq!(write(&mut bank, number, 7).refusal, expected);
        assert_eq!(status(&bank), 0b010);
        enable(&mut bank, number);
        assert_eq!(interrupt(&bank), number & 0b010 != 0);
        acknowledge(&mut bank, number);
        assert_eq!(bank.status, 0b010 & !number);
        assert_eq!(bank.waiting, 1);
    }
}

/// "a new run": one of the remainder too, and of the empty list. To run is not to continue.
#[test]
fn a_new_run_does_not_continue() {
    for list in [&LIST[4..], &LIST, &[]] {
        let mut bank = waiting(FIRST);
        assert_eq!(run(&mut bank, list, 9).refusal, 14);
        let status = 0b110;
        let expected = Bank {
            status,
            ..waiting(FIRST)
        };
        assert_eq!(bank, expected);
    }
}

/// Nor does it take the other's place: the one that waits goes on waiting.
#[test]
fn a_refused_run_does_not_replace_the_one_that_waits() {
    for (_, list) in ENDS {
        let mut bank = waiting(FIRST);
        assert_ne!(run(&mut bank, list, 0).refusal, 0);
        assert_ne!(continue_run(&mut bank, list, 0).refusal, 0);
        assert_eq!(continue_run(&mut bank, &LIST[4..], 9).refusal, 0);
    }
}

/// A refused run does not wait, though it has operations left.
#[test]
fn a_refused_run_does_not_wait() {
    for list in [&[0; 4][..], &[1, 16, 0, 0], &LIST[..3]] {
        let mut bank = unit();
        assert_ne!(run(&mut bank, list, 0).refusal, 0);
        assert_eq!(bank.waiting, 0);
        assert_eq!(continue_run(&mut bank, &LIST, 0).refusal, 14);
    }
}

/// "After spent": a run by which nothing was run waits too, continued or not.
#[test]
fn a_run_of_no_operation_waits() {
    let mut bank = waiting(0);
    for _ in 0..3 {
        assert_eq!((bank.waiting, bank.left), (1, 16));
        assert_eq!(continue_run(&mut bank, &LIST, 1).result.ran, 0);
    }
    assert_eq!(continue_run(&mut bank, &LIST, 9).result.end, End::Done);
}

/// After done nothing waits, not even nothing: a run that is done is not continued by the
/// empty list, and the next run is a new one.
#[test]
fn a_run_that_is_done_does_not_wait() {
    for list in [&LIST[..], &[]] {
        let mut bank = unit();
        assert_eq!(run(&mut bank, list, 9).result.end, End::Done);
        assert_eq!(continue_run(&mut bank, &[], 9).refusal, 14);
        assert_eq!(run(&mut bank, list, 9).refusal, 0);
    }
}

/// More than once: a continued run that ends spent waits again, with less.
#[test]
fn a_run_is_continued_more_than_once() {
    let mut bank = waiting(FIRST);
    for (from, figure) in CYCLES.into_iter().enumerate().skip(1) {
        assert_eq!((bank.waiting, bank.left as usize), (1, 16 - 4 * from));
        let answer = continue_run(&mut bank, &LIST[4 * from..], figure).result;
        assert_eq!((answer.ran, answer.cycles), (1, figure));
    }
    assert_eq!((bank.waiting, bank.left), (0, 4));
}

/// "byte for byte": not as operations, of which some bytes are not looked at.
#[test]
fn lists_that_do_the_same_are_not_equal() {
    for form in &FORMS {
        for place in form.unused_places() {
            let operation = form.operation([1, 2, 3]);
            let mut other = operation;
            other[place] += 1;
            let mut bank = unit();
            run(&mut bank, &operation, 0);
            assert_eq!(continue_run(&mut bank, &other, 3).refusal, 14);
            assert_eq!(continue_run(&mut bank, &operation, 3).refusal, 0);
        }
    }
}

/// "must equal": neither a part of the remainder, nor more than that.
#[test]
fn parts_of_the_remainder_are_not_equal() {
    let remainder = &LIST[4..];
    let longer = [remainder, remainder].concat();
    for length in (0..=24).step_by(4) {
        let mut bank = waiting(FIRST);
        bank.list[..24].copy_from_slice(&longer);
        let number = continue_run(&mut bank, &longer[..length], 9).refusal;
        assert_eq!(number, if length == 12 { 0 } else { 14 });
    }
}

/// "14 [..] after 13": where a list has a lower number, or an operation, that is the answer,
/// whatever waits. 14 at first would be seen on each of them.
#[test]
fn the_number_14_is_no_lower_than_the_others() {
    for (place, byte) in [(0, 0), (0, 11), (1, 16), (2, 255), (3, 16)] {
        let mut operation = [3, 1, 2, 3];
        operation[place] = byte;
        let number = refusal(&operation);
        assert_eq!(number, if place == 0 { 7 } else { 8 });
        for mut bank in [waiting(FIRST), unit()] {
            assert_eq!(continue_run(&mut bank, &operation, 9).refusal, number);
            assert_eq!(continue_run(&mut bank, &operation[..3], 9).refusal, 4);
            assert_eq!(run(&mut bank, &operation, 9).refusal, number);
            assert_eq!(operate(&mut bank, operation).refusal, number);
        }
    }
}

/// "dropping [..] changes only that the bank no longer waits": other readings would be seen
/// on these status bytes, and in what is left.
#[test]
fn dropping_is_neither_an_end_nor_an_acknowledgement_nor_an_undoing() {
    for held in 0..=255 {
        let mut bank = waiting(FIRST);
        bank.status = held;
        let before = bank;
        drop_run(&mut bank);
        assert_eq!(bank.status == held & !0b010, held & 0b010 == 0);
        assert_eq!(bank.status == held | 0b001, held & 0b001 != 0);
        assert_eq!(bank.status == held | 0b100, held & 0b100 != 0);
        assert_ne!(bank.ib, unit().ib);
        assert_ne!((bank.left, bank.list), (0, [0; 4_096]));
        let expected = Bank {
            waiting: 0,
            ..before
        };
        assert_eq!(bank, expected);
    }
}

/// "dropping is always allowed": there is no number for it, and with nothing to drop nothing
/// changes.
#[test]
fn dropping_nothing_changes_nothing() {
    let mut done = waiting(9);
    for bank in [&mut unit(), &mut done] {
        let before = *bank;
        drop_run(bank);
        assert_eq!(*bank, before);
    }
}

/// A drop is for good: what was remembered is still in the bank, but it is not continued.
#[test]
fn what_was_dropped_is_not_continued() {
    let mut bank = waiting(FIRST);
    drop_run(&mut bank);
    assert_eq!(bank.list[..12], LIST[4..]);
    assert_eq!(continue_run(&mut bank, &LIST[4..], 9).refusal, 14);
}

/// Checks that of a continued run on this status byte, which ends so, the other reading
/// leaves another status byte exactly on these.
fn assert_status_seen(misread: fn(u8, End) -> u8, seen: fn(u8, End) -> bool) {
    for held in 0..=255 {
        for (end, budget) in [(End::Done, 7), (End::Spent, 6), (End::Refused, 0)] {
            let mut bank = waiting(FIRST);
            bank.status = held;
            let from = if end == End::Refused { 0 } else { 4 };
            let answer = continue_run(&mut bank, &LIST[from..], budget);
            assert_eq!(answer.result.end, end);
            assert_eq!(bank.status, held | status_bit(end));
            let is_seen = bank.status != misread(held, end);
            assert_eq!(is_seen, seen(held, end), "{held:#x} {end:?}");
        }
    }
}

/// "the status bits of Req 09 count for continued runs": it is not the first part alone that
/// sets them.
#[test]
fn continued_runs_set_status_bits() {
    assert_status_seen(|held, _| held, |held, end| held & status_bit(end) == 0);
}

/// A run that is done at last does not take back that it was spent before, nor does one that
/// goes on.
#[test]
fn done_does_not_acknowledge_spent() {
    assert_status_seen(
        |held, end| match end {
            End::Done => held & !0b010 | 0b001,
            _ => held | status_bit(end),
        },
        |held, end| end == End::Done && held & 0b010 != 0,
    );
    assert_status_seen(
        |held, end| held & !0b010 | status_bit(end),
        |held, end| end != End::Spent && held & 0b010 != 0,
    );
}

/// "The bank remembers that it waits": the status byte does not say so. To acknowledge that
/// a run was spent is not to drop it.
#[test]
fn waiting_is_not_the_status_bit_of_spent_runs() {
    for held in 0..=255 {
        for waits in [0, 1] {
            let bank = Bank {
                status: held,
                waiting: waits,
                ..waiting(FIRST)
            };
            let number = run(&mut bank.clone(), &[], 0).refusal;
            assert_eq!(number, if waits == 0 { 0 } else { 14 });
            let misread = held & 0b010 != 0;
            assert_eq!((number == 14) == misread, (waits == 1) == misread);

            let mut acknowledged = bank;
            acknowledge(&mut acknowledged, 0xFF);
            assert_eq!(acknowledged.waiting, waits);
        }
    }
}

/// Nor does what is remembered say so: a bank with operations left may not wait, and one
/// that waits may have none left.
#[test]
fn waiting_is_not_that_something_is_left() {
    for left in [0, 4, 16, 4_096] {
        for waits in [0, 1] {
            let mut bank = Bank {
                left,
                waiting: waits,
                ..unit()
            };
            let number = run(&mut bank, &LIST, 9).refusal;
            assert_eq!(number, if waits == 0 { 0 } else { 14 });
            let misread = left != 0;
            assert_eq!((number == 14) != misread, (waits == 1) != misread);
        }
    }
}

/// A remainder is refused as any list: that the bank remembers it does not make it good.
#[test]
fn a_remembered_list_is_checked_again() {
    for place in 0..each_form().len() {
        let mut list = each_form();
        list[place] = 255;
        let number = refusal(&list[place / 4 * 4..][..4]);
        let mut bank = unit();
        (bank.waiting, bank.left) = (1, list.len() as u32);
        bank.list[..list.len()].copy_from_slice(&list);
        assert_eq!(continue_run(&mut bank, &list, u32::MAX).refusal, number);
    }
}
