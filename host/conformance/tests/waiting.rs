//! Request 10 of paper 02, a load while a run is waiting: library, wrapper and model
//! agree on runs that are continued, and what follows from the request holds. What is
//! refused is in `refused_waiting.rs`.

use conformance::arbitrary::{byte, list, operation, register};
use conformance::frame::among_others;
use conformance::programs::{bank, cycles, program, waiting_bank, Form, FORMS, LONGEST};
use conformance::samples::Random;
use conformance::unit::{acknowledge, enable, interrupt, operate, read, run, status, write};
use conformance::unit::{continue_run, drop_run, lent, registers, Bank, End, Operation, Run};

/// What the bank remembers.
fn remembered(bank: &Bank) -> (u8, u32, [u8; LONGEST]) {
    (bank.waiting, bank.left, bank.list)
}

/// Checks that the bank waits with this remainder.
fn assert_waits(bank: &Bank, remainder: &[u8]) {
    assert_eq!((bank.waiting, bank.left as usize), (1, remainder.len()));
    assert_eq!(&bank.list[..remainder.len()], remainder);
    assert!(lent(bank).waits());
    assert_eq!(lent(bank).remainder(), Some(remainder));
}

/// Checks that it does not.
fn assert_waits_not(bank: &Bank) {
    assert_eq!(bank.waiting, 0);
    assert!(!lent(bank).waits());
    assert_eq!(lent(bank).remainder(), None);
}

/// Runs the list and continues it until it is done, each time with the next budget; what
/// is done while it waits gets the bank and the count of operations run. Answers the sums
/// of the parts.
fn in_parts(
    bank: &mut Bank,
    list: &[u8],
    mut budget: impl FnMut() -> u32,
    mut meanwhile: impl FnMut(&mut Bank, usize),
) -> Run {
    let mut sum = run(bank, list, budget()).result;
    while sum.end == End::Spent {
        let remainder = &list[4 * sum.ran as usize..];
        assert_waits(bank, remainder);
        meanwhile(bank, sum.ran as usize);
        let part = continue_run(bank, remainder, budget()).result;
        sum.end = part.end;
        sum.ran += part.ran;
        sum.cycles += part.cycles;
    }
    assert_waits_not(bank);
    sum
}

/// Checks that the list, in parts of these budgets, leaves the registers that one run
/// with an ample budget leaves, and answers as much in sum.
fn assert_as_one_run(before: &Bank, list: &[u8], budget: impl FnMut() -> u32) {
    let [mut whole, mut parts] = [*before; 2];
    let expected = run(&mut whole, list, u32::MAX).result;
    let answer = in_parts(&mut parts, list, budget, |_, _| ());
    assert_eq!(answer, expected);
    assert_eq!(registers(&parts), registers(&whole));
}

/// The operations of a list.
fn operations(list: &[u8]) -> impl Iterator<Item = Operation> + '_ {
    list.chunks_exact(4)
        .map(|bytes| bytes.try_into().expect("four bytes"))
}

/// The cycles of its longest operation.
fn longest(list: &[u8]) -> u32 {
    let figures = operations(list).map(|operation| cycles(&operation));
    figures.max().unwrap_or(0)
}

/// "A fresh bank does not wait."
#[test]
fn a_fresh_bank_does_not_wait() {
    assert_waits_not(&Bank::default());
    assert_eq!(lent(&Bank::default()), tigbayon::Bank::default());
    assert_eq!(continue_run(&mut Bank::default(), &[], 0).refusal, 14);
}

/// The list of rows 10 and 10b of paper 01, and their unit.
const ROW_10: [u8; 8] = [8, 0, 0, 3, 3, 1, 2, 3];

fn unit_of_row_10() -> Bank {
    let mut bank = Bank::default();
    bank.general[2] = 0xB6;
    bank.general[3] = 0xAD;
    bank
}

/// Row 10b, "spent, 1 run, 2 cycles, register 1 = 0", continued: as row 10, "done, 2 run, 3
/// cycles, register 1 = 0x1A", in sum.
#[test]
fn row_10b_continued_is_row_10() {
    let mut bank = unit_of_row_10();
    let (end, ran, cycles) = (End::Spent, 1, 2);
    assert_eq!(run(&mut bank, &ROW_10, 2).result, Run { end, ran, cycles });
    assert_waits(&bank, &[3, 1, 2, 3]);
    assert_eq!((bank.general[1], bank.status), (0, 0b010));

    let nothing = continue_run(&mut bank, &[3, 1, 2, 3], 0).result;
    let (end, ran, cycles) = (End::Spent, 0, 0);
    assert_eq!(nothing, Run { end, ran, cycles });
    assert_waits(&bank, &[3, 1, 2, 3]);

    let rest = continue_run(&mut bank, &[3, 1, 2, 3], 1).result;
    let (end, ran, cycles) = (End::Done, 1, 1);
    assert_eq!(rest, Run { end, ran, cycles });
    assert_waits_not(&bank);
    assert_eq!((bank.general[1], bank.status), (0x1A, 0b011));
}

/// "While it waits, the host may write a general register. The operations still to come
/// see that value": the five bits of 0xFF that 0xAD marks are five ones.
#[test]
fn row_10b_with_a_load() {
    let mut bank = unit_of_row_10();
    run(&mut bank, &ROW_10, 2);
    write(&mut bank, 2, 0xFF);
    continue_run(&mut bank, &[3, 1, 2, 3], 1);
    assert_eq!(bank.general[..4], [0, 0x1F, 0xFF, 0xAD]);
}

/// The operations run see nothing of it: the settings stay those of 0xAD, and its bit 0 is
/// bit 0 of what is gathered, whatever mask is written meanwhile.
#[test]
fn row_10b_with_another_mask_loaded() {
    let mut bank = unit_of_row_10();
    run(&mut bank, &ROW_10, 2);
    let settings = bank.ib;
    write(&mut bank, 2, 0xFF);
    write(&mut bank, 3, 0x01);
    continue_run(&mut bank, &[3, 1, 2, 3], 1);
    assert_eq!(bank.general[..4], [0, 0x01, 0xFF, 0x01]);
    assert_eq!(bank.ib, settings);
}

/// A fresh unit's kind 1 reverses the word: register 1, which the first operation wrote, is
/// written anew before the second reads it.
#[test]
fn a_result_is_loaded_over() {
    let list = [1, 1, 2, 0, 1, 3, 1, 0];
    let mut bank = Bank::default();
    bank.general[2] = 0x8000_0000_0000_0000;
    run(&mut bank, &list, 1);
    assert_eq!(bank.general[..4], [0, 1, 0x8000_0000_0000_0000, 0]);
    write(&mut bank, 1, 5);
    continue_run(&mut bank, &list[4..], 1);
    assert_eq!(bank.general[1], 5);
    assert_eq!(bank.general[3], 0xA000_0000_0000_0000);
}

/// By the table's cycles, 1, 3, 2, 3: with 3 each time, of which what is left is not carried
/// along. Kinds 6 and 10 are rows 1 and 3.
#[test]
fn four_kinds_by_hand() {
    let list = [5, 1, 2, 3, 6, 4, 2, 3, 8, 0, 0, 3, 10, 5, 2, 3];
    let mut bank = unit_of_row_10();
    let parts = [
        (End::Spent, 1, [0, 0]),
        (End::Spent, 3, [0x1A, 0]),
        (End::Spent, 2, [0x1A, 0]),
        (End::Done, 3, [0x1A, 0x7A]),
    ];
    for (turn, (end, cycles, results)) in parts.into_iter().enumerate() {
        let remainder = &list[4 * turn..];
        let call = if turn == 0 { run } else { continue_run };
        let answer = call(&mut bank, remainder, 3).result;
        assert_eq!(
            answer,
            Run {
                end,
                ran: 1,
                cycles
            }
        );
        assert_eq!(bank.general[4..6], results);
        match end {
            End::Spent => assert_waits(&bank, &remainder[4..]),
            _ => assert_waits_not(&bank),
        }
    }
    assert_eq!(bank.b, [0xB6, 0xAD, 0]);
}

/// "Without such writes, continuing until done leaves the general and settings registers
/// that one run with an ample budget leaves": by each budget by which each operation fits.
#[test]
fn every_budget_until_done_is_one_run() {
    let mut random = Random::default();
    for round in 0..60 {
        let list = program(&mut random, round % 13);
        let before = bank(&mut random);
        for budget in longest(&list)..=cycles(&list) {
            assert_as_one_run(&before, &list, || budget);
        }
    }
}

/// By budgets that change, and some of which are 0.
#[test]
fn other_budgets_each_time_are_one_run() {
    let mut random = Random::default();
    for round in 0..300 {
        let list = program(&mut random, round % 50);
        let before = bank(&mut random);
        let most = 1 + random.below(12).max(3);
        assert_as_one_run(&before, &list, || random.below(most));
    }
}

/// "any 32-bit count": each high bit of it alone is enough for a short list.
#[test]
fn the_largest_budgets() {
    let mut random = Random::default();
    let list = program(&mut random, 10);
    let before = waiting_bank(&mut random, &list);
    for budget in (5..32).map(|bit| 1 << bit).chain([u32::MAX - 1, u32::MAX]) {
        let mut bank = before;
        let answer = continue_run(&mut bank, &list, budget).result;
        assert_eq!((answer.end, answer.ran), (End::Done, 10));
        assert_eq!(run(&mut bank, &list, budget).result, answer);
    }
}

#[test]
fn the_longest_lists_in_parts_are_one_run() {
    let mut random = Random::default();
    let list = program(&mut random, 1_024);
    let before = bank(&mut random);
    for budget in [3, 4, 64, 1_000, cycles(&list) - 1] {
        assert_as_one_run(&before, &list, || budget);
    }
}

/// 1,024 operations of one cycle: every remainder from 4,096 bytes down to 4 is remembered.
#[test]
fn the_longest_list_from_each_of_its_operations() {
    let operation = |n: u32| [5, 1 + (n % 4) as u8, (n % 16) as u8, (n / 16 % 16) as u8];
    let list: Vec<u8> = (0..1_024).flat_map(operation).collect();
    let before = bank(&mut Random::default());
    let mut whole = before;
    run(&mut whole, &list, 1_024);
    for ran in 0..1_024 {
        let mut bank = before;
        let (end, cycles) = (End::Spent, ran);
        assert_eq!(run(&mut bank, &list, ran).result, Run { end, ran, cycles });
        let (_, remainder) = list.split_at(4 * ran as usize);
        assert_waits(&bank, remainder);
        assert_eq!(bank.list[remainder.len()..], before.list[remainder.len()..]);

        let (end, ran, cycles) = (End::Done, 1_024 - ran, 1_024 - ran);
        let answer = continue_run(&mut bank, remainder, cycles).result;
        assert_eq!(answer, Run { end, ran, cycles });
        assert_eq!(registers(&bank), registers(&whole));
    }
}

/// A continued run may be continued: one operation a call, to the end of the longest list.
#[test]
fn the_longest_list_by_single_operations() {
    let list = [5, 1, 2, 3].repeat(1_024);
    let mut bank = bank(&mut Random::default());
    let mut calls = 0;
    let sum = in_parts(&mut bank, &list, || 1, |_, _| calls += 1);
    assert_eq!((sum.ran, sum.cycles, calls), (1_024, 1_024, 1_023));
}

/// A write while the run waits: after so many operations, of which register, and which value.
type Load = (usize, u8, u64);

/// The list in parts with some writes between, and what they were.
fn loaded(random: &mut Random, bank: &mut Bank, list: &[u8]) -> Vec<Load> {
    let mut other = Random::from(random.word());
    let mut loads = Vec::new();
    in_parts(
        bank,
        list,
        || other.below(7),
        |bank, ran| {
            for _ in 0..random.below(4) {
                let (number, value) = (random.below(16) as u8, random.word());
                assert_eq!(write(bank, number, value).refusal, 0);
                loads.push((ran, number, value));
            }
        },
    );
    loads
}

/// "The operations still to come see that value, just as if the write stood in the list at
/// that point": by the model, and by single operations and writes of the library.
#[test]
fn with_writes_between_as_if_they_stood_in_the_list() {
    let mut random = Random::default();
    let mut count = 0;
    for round in 0..300 {
        let list = program(&mut random, 1 + round % 30);
        let before = bank(&mut random);
        let (mut parts, mut model, mut library) = (before, before, lent(&before));
        let loads = loaded(&mut random, &mut parts, &list);
        for (ran, operation) in operations(&list).enumerate() {
            for &(_, number, value) in loads.iter().filter(|load| load.0 == ran) {
                model::unit::write(&mut model, number, value);
                library.write(number, value).expect("a register");
            }
            let [kind, r1, r2, r3] = operation;
            model::unit::operate(&mut model, operation);
            library.operate(kind, r1, r2, r3).expect("an operation");
        }
        assert_eq!(registers(&parts), registers(&model));
        assert_eq!(registers(&parts), (library.general, library.b, library.ib));
        count += loads.len();
    }
    assert!(count > 1_000, "{count}");
}

/// What is written is there for any operation: each form, each register that it reads.
#[test]
fn the_next_operation_reads_what_was_written() {
    let mut random = Random::default();
    for form in &FORMS {
        for place in form.places() {
            let operation = form.operation([1, 2, 3]);
            let mut waiting = waiting_bank(&mut random, &operation);
            let (number, value) = (operation[place], random.word());
            let mut alone = Bank {
                waiting: 0,
                ..waiting
            };
            for bank in [&mut waiting, &mut alone] {
                write(bank, number, value);
            }
            operate(&mut alone, operation);
            let answer = continue_run(&mut waiting, &operation, form.cycles).result;
            assert_eq!((answer.end, answer.ran), (End::Done, 1));
            assert_eq!(registers(&waiting), registers(&alone));
        }
    }
}

/// A write that is refused is none.
#[test]
fn a_refused_write_leaves_the_run_as_it_is() {
    let mut random = Random::default();
    for number in 16..=255 {
        let list = program(&mut random, 3);
        let before = waiting_bank(&mut random, &list);
        let [mut bank, mut other] = [before; 2];
        assert_eq!(write(&mut bank, number, !0).refusal, 8);
        assert_eq!(bank, before);
        continue_run(&mut bank, &list, 5);
        continue_run(&mut other, &list, 5);
        assert_eq!(bank, other);
    }
}

/// Makes a call that leaves what is remembered as it is: every call but runs and frames that
/// are carried out, and drops.
fn other_call(random: &mut Random, bank: &mut Bank) {
    match random.below(10) {
        0 => {
            operate(bank, operation(random));
        }
        1 => {
            let list = list(random);
            run(bank, &list, random.word() as u32);
        }
        2 => {
            let list = [&bank.list[..bank.left as usize], &[1, 0, 0, 0]].concat();
            continue_run(bank, &list, random.word() as u32);
        }
        9 => {
            let list = [&bank.list[..bank.left as usize], &[1, 0, 0, 0]].concat();
            among_others(random, bank, &list, 9);
        }
        3 => {
            read(bank, register(random));
        }
        4 => {
            write(bank, register(random), random.word());
        }
        5 => {
            status(bank);
        }
        6 => enable(bank, byte(random)),
        7 => acknowledge(bank, byte(random)),
        _ => {
            interrupt(bank);
        }
    }
}

/// "until it is done or dropped"
#[test]
fn a_bank_waits_through_every_other_call() {
    let mut random = Random::default();
    for round in 0..200 {
        let list = program(&mut random, round % 9);
        let mut bank = waiting_bank(&mut random, &list);
        let before = remembered(&bank);
        for _ in 0..30 {
            other_call(&mut random, &mut bank);
            assert_eq!(remembered(&bank), before);
        }
        assert_eq!(continue_run(&mut bank, &list, u32::MAX).refusal, 0);
    }
}

/// "dropping is always allowed and changes only that the bank no longer waits"
#[test]
fn dropping_changes_only_that_the_bank_waits() {
    let mut random = Random::default();
    for waiting in 0..=255 {
        let before = Bank {
            waiting,
            ..bank(&mut random)
        };
        let mut bank = before;
        drop_run(&mut bank);
        let expected = Bank {
            waiting: 0,
            ..before
        };
        assert_eq!(bank, expected);
        assert_waits_not(&bank);
        drop_run(&mut bank);
        assert_eq!(bank, expected);
    }
}

/// After it single operations and new runs are as on a bank that never waited.
#[test]
fn after_a_drop_operations_and_runs_are_as_ever() {
    let mut random = Random::default();
    for round in 0..300 {
        let [dropped, anew] = [(); 2].map(|()| program(&mut random, 1 + round % 7));
        let mut bank = bank(&mut random);
        run(&mut bank, &dropped, random.below(cycles(&dropped)));
        let mut never = bank;
        never.waiting = 0;
        drop_run(&mut bank);
        assert_eq!(continue_run(&mut bank.clone(), &dropped, 0).refusal, 14);

        for operation in operations(&dropped) {
            let figure = Form::of(&operation).map(|form| form.cycles);
            assert_eq!(Some(operate(&mut bank, operation).result), figure);
            operate(&mut never, operation);
        }
        let budget = random.below(cycles(&anew) + 1);
        let answers = [&mut bank, &mut never].map(|bank| run(bank, &anew, budget));
        assert_eq!(answers[0], answers[1]);
        assert_eq!((answers[0].refusal, bank), (0, never));
    }
}

/// A spent run writes the copy, and only as many bytes as are left.
#[test]
fn bytes_above_the_remainder_stay() {
    let list = [5, 1, 2, 3, 5, 2, 3, 4, 5, 3, 4, 5];
    let mut bank = Bank {
        list: [0xEE; LONGEST],
        ..Bank::default()
    };
    run(&mut bank, &list, 1);
    assert_eq!(bank.left, 8);
    assert_eq!(bank.list[..8], [5, 2, 3, 4, 5, 3, 4, 5]);
    assert_eq!(bank.list[8..], [0xEE; LONGEST - 8]);
    continue_run(&mut bank, &list[4..], 1);
    assert_eq!(bank.left, 4);
    assert_eq!(bank.list[..8], [5, 3, 4, 5, 5, 3, 4, 5]);
    assert_eq!(bank.list[8..], [0xEE; LONGEST - 8]);
}

/// A run that ends done has nothing left, and writes nothing of what is remembered but that
/// the bank does not wait.
#[test]
fn a_run_that_is_done_writes_no_copy() {
    let mut random = Random::default();
    for round in 0..200 {
        let list = program(&mut random, round % 20);
        let before = bank(&mut random);
        let mut bank = before;
        assert_eq!(run(&mut bank, &list, u32::MAX).result.end, End::Done);
        assert_eq!(remembered(&bank), remembered(&before));

        let before = waiting_bank(&mut random, &list);
        let mut bank = before;
        assert_eq!(
            continue_run(&mut bank, &list, u32::MAX).result.end,
            End::Done
        );
        assert_eq!(remembered(&bank), (0, before.left, before.list));
    }
}

/// The bank has "a copy of the operations left": what becomes of the host's own list, or of
/// another bank, is nothing to it.
#[test]
fn banks_and_lists_apart_from_each_other() {
    let mut random = Random::default();
    for _ in 0..100 {
        let [mut list, other] = [(); 2].map(|()| program(&mut random, 8));
        let kept = list.clone();
        let [mut one, mut two, mut whole] = [bank(&mut random); 3];
        run(&mut whole, &list, u32::MAX);
        let ran = run(&mut one, &list, 5).result.ran as usize;
        list.copy_from_slice(&other);
        run(&mut two, &list, 7);
        let mut fork = one;
        write(&mut fork, 0, 7);
        assert_eq!(
            continue_run(&mut one, &kept[4 * ran..], u32::MAX).refusal,
            0
        );
        assert_eq!(registers(&one), registers(&whole));
        assert_waits(&fork, &kept[4 * ran..]);
        assert!(lent(&two).waits());
    }
}

/// Makes some call on the bank, which waits with this remainder or does not, and puts down
/// what it must remember then.
fn any_call(random: &mut Random, bank: &mut Bank, waits: &mut Option<Vec<u8>>) {
    let budget = random.below(9);
    let (list, answer, turned_back) = match random.below(10) {
        0 => {
            drop_run(bank);
            *waits = None;
            return;
        }
        1 | 2 if waits.is_some() => return other_call(random, bank),
        3 | 4 => {
            let list = program(random, 8);
            let answer = run(bank, &list, budget);
            (list, answer, waits.is_some())
        }
        5 | 6 => {
            let list = waits.clone().unwrap_or_else(|| program(random, 8));
            let answer = among_others(random, bank, &list, budget);
            (list, answer, false)
        }
        _ => {
            let list = waits.clone().unwrap_or_default();
            let answer = continue_run(bank, &list, budget);
            (list, answer, waits.is_none())
        }
    };
    assert_eq!(answer.refusal, if turned_back { 14 } else { 0 });
    match answer.result.end {
        End::Refused => {}
        End::Done => *waits = None,
        End::Spent => *waits = Some(list[4 * answer.result.ran as usize..].to_vec()),
    }
}

/// Over sequences of calls on a fresh bank: it waits since the last run, continued or not,
/// alone or in a frame, that was carried out, if that ended spent and was not dropped.
#[test]
fn a_bank_waits_since_the_last_spent_run() {
    let mut random = Random::default();
    for _ in 0..100 {
        let mut bank = Bank::default();
        let mut waits = None;
        for _ in 0..60 {
            any_call(&mut random, &mut bank, &mut waits);
            match &waits {
                Some(remainder) => assert_waits(&bank, remainder),
                None => assert_waits_not(&bank),
            }
        }
    }
}

/// The wrapper's remainder of any bank: there is none if it does not wait, or has more left
/// than it can hold.
#[test]
fn remainders_of_any_bank() {
    let mut bank = lent(&bank(&mut Random::default()));
    for left in (0..=LONGEST as u32 + 9).chain([1 << 16, (1 << 16) + 4, 1 << 31, u32::MAX]) {
        bank.left = left;
        for waiting in [0, 1, 2, 255] {
            bank.waiting = waiting;
            let some = waiting != 0 && left <= 4_096;
            let expected = some.then(|| &bank.list[..left as usize]);
            assert_eq!(bank.remainder(), expected);
            assert_eq!(bank.waits(), waiting != 0);
        }
    }
}
