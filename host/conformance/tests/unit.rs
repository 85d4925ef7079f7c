//! Library, wrapper and model agree on operations and runs that are carried
//! out.

use conformance::programs::{bank, cycles, program, FORMS, LONGEST};
use conformance::samples::Random;
use conformance::unit::{operate, read, run, with_status, write, Bank, End, Run};

/// Registers equal to each other among them.
#[test]
fn each_form_on_every_choice_of_registers() {
    let mut random = Random::default();
    for form in &FORMS {
        let [r1s, r2s, r3s] = form.registers.map(|used| if used { 0..16 } else { 0..1 });
        let before = bank(&mut random);
        for r1 in r1s {
            for (r2, r3) in r2s
                .clone()
                .flat_map(|r2| r3s.clone().map(move |r3| (r2, r3)))
            {
                let answer = operate(&mut before.clone(), form.operation([r1, r2, r3]));
                assert_eq!((answer.refusal, answer.result), (0, form.cycles));
            }
        }
    }
}

#[test]
fn each_form_on_many_banks() {
    let mut random = Random::default();
    for form in &FORMS {
        for _ in 0..500 {
            let bytes = [16; 3].map(|bound| random.below(bound) as u8);
            operate(&mut bank(&mut random), form.operation(bytes));
        }
    }
}

/// From 0 to 1,024 operations, with budgets that suffice, just suffice, do not,
/// and are 0.
#[test]
fn random_programs_with_random_budgets() {
    let mut random = Random::default();
    for round in 0..1_000 {
        let length = match round % 5 {
            0 => random.below(1_025),
            1 => random.below(200),
            _ => random.below(20),
        };
        let list = program(&mut random, length);
        let total = cycles(&list);
        let budget = match round % 4 {
            0 => total + random.below(3),
            1 => total.saturating_sub(1 + random.below(3)),
            _ => random.below(total + 2),
        };
        let answer = run(&mut bank(&mut random), &list, budget);
        assert_eq!(answer.refusal, 0);
        assert_eq!(answer.result.end == End::Done, total <= budget);
    }
}

#[test]
fn the_longest_lists() {
    let mut random = Random::default();
    for _ in 0..4 {
        let list = program(&mut random, 1_024);
        assert_eq!(list.len(), LONGEST);
        let answer = run(&mut bank(&mut random), &list, u32::MAX);
        let (end, ran, cycles) = (End::Done, 1_024, cycles(&list));
        assert_eq!(answer.result, Run { end, ran, cycles });
    }
}

#[test]
fn small_and_the_largest_budgets() {
    let mut random = Random::default();
    for _ in 0..1_000 {
        let length = random.below(6);
        let list = program(&mut random, length);
        for budget in [0, 1, 2, 3, u32::MAX - 1, u32::MAX] {
            run(&mut bank(&mut random), &list, budget);
        }
    }
}

/// Each budget from 0 to one more than the sum, each form at the end of it.
#[test]
fn every_budget_of_short_lists() {
    let mut random = Random::default();
    for form in &FORMS {
        for length in 0..5 {
            let mut list = program(&mut random, length);
            list.extend(form.operation([1, 2, 3]));
            let total = cycles(&list);
            for budget in 0..=total + 1 {
                let answer = run(&mut bank(&mut random), &list, budget).result;
                assert_eq!(answer.end == End::Spent, budget < total);
            }
        }
    }
}

#[test]
fn the_empty_list_is_done() {
    let before = bank(&mut Random::default());
    for budget in [0, 1, u32::MAX] {
        let mut after = before;
        let (end, ran, cycles) = (End::Done, 0, 0);
        assert_eq!(
            run(&mut after, &[], budget).result,
            Run { end, ran, cycles }
        );
        assert_eq!(after, with_status(&before, 0b001));
    }
}

#[test]
fn every_register_is_read_and_written() {
    let mut random = Random::default();
    for number in 0..16 {
        let mut bank = bank(&mut random);
        let value = random.word();
        assert_eq!(write(&mut bank, number, value).refusal, 0);
        assert_eq!(read(&bank, number).result, value);
        for other in 0..16 {
            let expected = bank.general[usize::from(other)];
            assert_eq!(read(&bank, other).result, expected);
        }
    }
    assert_eq!(read(&Bank::default(), 15).result, 0);
}
