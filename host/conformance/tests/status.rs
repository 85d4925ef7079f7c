//! Request 09 of paper 02, the status byte and the enable byte of a bank: library,
//! wrapper and model agree on all their values, and what follows from the request holds.

use conformance::arbitrary::{budget, byte, list, operation, register};
use conformance::frame::among_others;
use conformance::programs::{bank, cycles, program, waiting_bank, ENDS, FORMS, LONGEST};
use conformance::samples::Random;
use conformance::unit::{acknowledge, enable, interrupt, operate, read, run, status, write};
use conformance::unit::{assert_run_number, continue_run, drop_run};
use conformance::unit::{status_bit, with_status, Bank, End};

/// Every two bytes.
fn byte_pairs() -> impl Iterator<Item = (u8, u8)> {
    (0..=255).flat_map(|one| (0..=255).map(move |other| (one, other)))
}

/// Banks of every two bytes, their registers random for each status.
fn banks() -> impl Iterator<Item = Bank> {
    let mut random = Random::default();
    (0..=255).flat_map(move |status| {
        let any = bank(&mut random);
        (0..=255).map(move |enable| Bank {
            status,
            enable,
            ..any
        })
    })
}

/// "both zero when fresh"
#[test]
fn both_bytes_of_a_fresh_bank_are_zero() {
    let fresh = tigbayon::Bank::default();
    assert_eq!((fresh.status, fresh.enable), (0, 0));
    assert_eq!(status(&Bank::default()), 0);
}

/// "Status bits 3 to 7 read zero"
#[test]
fn status_reads_bits_0_to_2_of_every_byte() {
    for bank in banks() {
        assert_eq!(status(&bank), bank.status & 0b111);
    }
}

/// "the host writes the enable byte"
#[test]
fn every_byte_is_enabled_after_every_other() {
    let mut random = Random::default();
    for (before, byte) in byte_pairs() {
        let mut bank = bank(&mut random);
        bank.enable = before;
        let expected = Bank {
            enable: byte,
            ..bank
        };
        enable(&mut bank, byte);
        assert_eq!(bank, expected);
    }
}

/// "clears the status bits where that byte has ones"
#[test]
fn every_byte_is_acknowledged_on_every_status() {
    let mut random = Random::default();
    for (held, byte) in byte_pairs() {
        let mut bank = bank(&mut random);
        bank.status = held;
        let status = held & !byte;
        let expected = Bank { status, ..bank };
        acknowledge(&mut bank, byte);
        assert_eq!(bank, expected);
    }
}

/// "high exactly when some bit is one in both bytes", of the bits that are read.
#[test]
fn the_line_on_every_status_and_every_enabled_byte() {
    for bank in banks() {
        let in_both = bank.status & bank.enable & 0b111;
        assert_eq!(interrupt(&bank), in_both != 0);
    }
}

/// Lists with budgets by which they end so, some of many operations, and refused by
/// each number that a run can be.
fn runs(random: &mut Random) -> Vec<(End, Vec<u8>, u32)> {
    let operations = 1 + random.below(12);
    let good = program(random, operations);
    let total = cycles(&good);
    let with = |operation: [u8; 4]| [&good[..], &operation].concat();
    vec![
        (End::Done, vec![], 0),
        (End::Done, good.clone(), total),
        (End::Done, good.clone(), u32::MAX),
        (End::Spent, good.clone(), 0),
        (End::Spent, good.clone(), total - 1),
        (End::Refused, good[1..].to_vec(), u32::MAX),
        (End::Refused, vec![1; LONGEST + 4], u32::MAX),
        (End::Refused, with([11, 0, 0, 0]), total),
        (End::Refused, with([3, 1, 2, 16]), 0),
    ]
}

/// "A run that ends done sets status bit 0, one that ends spent sets bit 1, and a
/// refused run sets bit 2": the other bits stay, and so does the enable byte.
#[test]
fn a_run_sets_the_bit_of_its_end_on_every_status() {
    let mut random = Random::default();
    for held in 0..=255 {
        for (end, list, budget) in runs(&mut random) {
            let mut bank = bank(&mut random);
            bank.status = held;
            let enabled = bank.enable;
            assert_eq!(run(&mut bank, &list, budget).result.end, end);
            let expected = (held | status_bit(end), enabled);
            assert_eq!((bank.status, bank.enable), expected);
        }
    }
}

/// Request 10: "the status bits of Req 09 count for continued runs."
#[test]
fn a_continued_run_sets_the_bit_of_its_end_on_every_status() {
    let mut random = Random::default();
    for held in 0..=255 {
        for (end, list, budget) in runs(&mut random) {
            let remainder = &list[..list.len().min(LONGEST)];
            let mut bank = waiting_bank(&mut random, remainder);
            bank.status = held;
            let enabled = bank.enable;
            assert_eq!(continue_run(&mut bank, &list, budget).result.end, end);
            let expected = (held | status_bit(end), enabled);
            assert_eq!((bank.status, bank.enable), expected);
        }
    }
}

/// "A refused run thus touches status bit 2 and no other register"
#[test]
fn a_refused_run_touches_bit_2_alone() {
    let mut random = Random::default();
    for bank in banks().step_by(7) {
        let refused = runs(&mut random).into_iter().skip(5);
        for ((end, list, budget), number) in refused.zip([4, 4, 7, 8]) {
            assert_eq!(end, End::Refused);
            assert_run_number(number, &bank, &list, budget);
        }
    }
}

/// "single operations, refused or not, touch neither byte": each form, and operations of
/// which about a third is refused.
#[test]
fn no_operation_touches_either_byte() {
    let mut random = Random::default();
    let mut numbers = [0; 9];
    for (turn, before) in banks().enumerate() {
        let mut bank = before;
        let operation = match turn % 2 {
            0 => operation(&mut random),
            _ => FORMS[turn / 2 % FORMS.len()].operation([1, 2, 3]),
        };
        let answer = operate(&mut bank, operation);
        numbers[usize::from(answer.refusal)] += 1;
        assert_eq!((bank.status, bank.enable), (before.status, before.enable));
    }
    assert!([0, 7, 8].iter().all(|&n| numbers[n] > 1_000), "{numbers:?}");
}

/// Nor does a read or a write of a general register.
#[test]
fn no_read_or_write_touches_either_byte() {
    let mut random = Random::default();
    for before in banks() {
        let number = register(&mut random);
        read(&before, number);
        let mut bank = before;
        let refused = write(&mut bank, number, !before.general[0]).refusal != 0;
        assert_eq!(refused, number > 15);
        assert_eq!((bank.status, bank.enable), (before.status, before.enable));
    }
}

#[test]
fn the_line_of_a_fresh_bank_is_low_whatever_is_enabled() {
    for byte in 0..=255 {
        let mut bank = Bank::default();
        assert!(!interrupt(&bank));
        enable(&mut bank, byte);
        assert!(!interrupt(&bank));
    }
}

#[test]
fn the_line_is_low_after_all_is_acknowledged_or_what_is_read() {
    for before in banks() {
        let mut bank = before;
        acknowledge(&mut bank, 0xFF);
        assert_eq!((bank.status, status(&bank)), (0, 0));
        assert!(!interrupt(&bank));

        let mut bank = before;
        acknowledge(&mut bank, status(&before));
        assert_eq!(status(&bank), 0);
        assert!(!interrupt(&bank));
    }
}

#[test]
fn after_a_run_the_line_is_high_if_it_was_or_if_the_bit_of_its_end_is_enabled() {
    for before in banks() {
        for (end, list) in ENDS {
            let mut bank = before;
            assert_eq!(run(&mut bank, list, 0).result.end, end);
            let enabled = before.enable & status_bit(end) != 0;
            assert_eq!(interrupt(&bank), interrupt(&before) || enabled);
            assert_eq!(status(&bank), status(&before) | status_bit(end));
        }
    }
}

/// The line stays high by what is not acknowledged.
#[test]
fn after_an_acknowledgement_the_line_is_high_by_the_bits_left() {
    let mut random = Random::default();
    for before in banks() {
        let byte = byte(&mut random);
        let mut bank = before;
        acknowledge(&mut bank, byte);
        let left = status(&before) & !byte;
        assert_eq!(interrupt(&bank), left & before.enable != 0);
    }
}

#[test]
fn acknowledging_twice_is_once() {
    for (status, byte) in byte_pairs() {
        let mut once = Bank {
            status,
            ..Bank::default()
        };
        acknowledge(&mut once, byte);
        let mut twice = once;
        acknowledge(&mut twice, byte);
        assert_eq!(twice, once);
    }
}

#[test]
fn acknowledging_one_byte_and_then_another_is_acknowledging_the_bits_of_both() {
    let mut random = Random::default();
    for (one, other) in byte_pairs() {
        let before = bank(&mut random);
        let [mut in_turn, mut turned, mut at_once] = [before; 3];
        acknowledge(&mut in_turn, one);
        acknowledge(&mut in_turn, other);
        acknowledge(&mut turned, other);
        acknowledge(&mut turned, one);
        acknowledge(&mut at_once, one | other);
        assert_eq!([in_turn, turned], [at_once; 2]);
    }
}

#[test]
fn acknowledging_0_and_enabling_what_is_enabled_change_nothing() {
    for before in banks() {
        let mut bank = before;
        acknowledge(&mut bank, 0);
        enable(&mut bank, before.enable);
        assert_eq!(bank, before);
    }
}

/// A run that ends as one before it, unacknowledged, leaves the status as it is.
#[test]
fn ending_twice_is_once() {
    for before in banks() {
        for (end, list) in ENDS {
            let mut bank = with_status(&before, status_bit(end));
            let expected = bank.status;
            run(&mut bank, list, 0);
            assert_eq!(bank.status, expected);
        }
    }
}

/// Status bits that become ones, by a run or a frame, or zeros, by an acknowledgement.
type Event = (u8, bool);

/// Makes some call on the bank, and answers what it must do to the status.
fn any_call(random: &mut Random, bank: &mut Bank) -> Event {
    match random.below(13) {
        0 => {
            operate(bank, operation(random));
        }
        1 | 2 => {
            let list = list(random);
            let budget = budget(random, &list);
            let end = run(bank, &list, budget).result.end;
            return (status_bit(end), true);
        }
        3 => {
            read(bank, register(random));
        }
        4 => {
            write(bank, register(random), random.word());
        }
        5 => {
            let byte = byte(random);
            acknowledge(bank, byte);
            return (byte, false);
        }
        6 => {
            let byte = byte(random);
            enable(bank, byte);
            assert_eq!(bank.enable, byte);
        }
        7 | 8 => {
            let list = bank.list[..bank.left as usize].to_vec();
            let budget = budget(random, &list);
            let end = continue_run(bank, &list, budget).result.end;
            return (status_bit(end), true);
        }
        9 => drop_run(bank),
        10 | 11 => return any_frame(random, bank),
        _ => {
            let in_both = status(bank) & bank.enable;
            assert_eq!(interrupt(bank), in_both != 0);
        }
    }
    (0, true)
}

/// The same of a frame, refused or not, of which the bank has a channel.
fn any_frame(random: &mut Random, bank: &mut Bank) -> Event {
    let list = match random.below(4) {
        0 => list(random),
        _ => bank.list[..bank.left as usize].to_vec(),
    };
    let guarantee = budget(random, &list);
    let end = among_others(random, bank, &list, guarantee).result.end;
    (status_bit(end), true)
}

/// The status that a fresh bank has after these, by the last that concerns each bit.
fn told(events: &[Event]) -> u8 {
    let last = |p: u32| {
        let mut latest = events.iter().rev();
        let of_bit = latest.find(|(bits, _)| bits >> p & 1 == 1);
        of_bit.is_some_and(|&(_, ones)| ones)
    };
    (0..3).map(|p| u8::from(last(p)) << p).sum()
}

/// Over sequences of calls on a fresh bank, whichever they are: each bit tells whether a
/// run ended so since it was last acknowledged.
#[test]
fn the_status_tells_the_ends_since_the_last_acknowledgement() {
    let mut random = Random::default();
    for _ in 0..100 {
        let mut bank = Bank::default();
        let mut events = Vec::new();
        for _ in 0..60 {
            events.push(any_call(&mut random, &mut bank));
            assert_eq!(status(&bank), told(&events));
            assert_eq!(bank.status, told(&events));
        }
    }
}

/// Bits 3 to 7 of the byte that is held become ones by no call.
#[test]
fn a_status_byte_below_8_stays_below_8() {
    let mut random = Random::default();
    for turn in 0..100 {
        let mut bank = waiting_bank(&mut random, &[]);
        bank.status = turn % 8;
        for _ in 0..60 {
            any_call(&mut random, &mut bank);
            assert!(bank.status < 8);
        }
    }
}
