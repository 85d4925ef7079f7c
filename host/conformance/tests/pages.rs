//! The calls of the register unit touch nothing beside what is lent to them: the list of a
//! run, the bank, and the guarantees of a frame, each right before or after a page that may
//! not be touched. The answers are those of the same calls elsewhere.
#![cfg(target_os = "linux")]

use conformance::arbitrary::{continued, frame, good_frame};
use conformance::frame::Frame;
use conformance::pages::{beside, Side, SIDES};
use conformance::programs::{program, waiting_bank, LONGEST};
use conformance::samples::Random;
use conformance::unit::lent;
use std::fmt::Debug;
use tigbayon::{tb_acknowledge, tb_continue, tb_drop, tb_enable, tb_frame, tb_interrupt};
use tigbayon::{tb_operate, tb_read, tb_run, tb_status, tb_write, TbBank, TbRun};

/// A run, or a continued one.
type RunCall = fn(&mut TbBank, &[u8], u32) -> TbRun;

const RUN_CALLS: [RunCall; 2] = [tb_run, tb_continue];

/// Checks that what a call answers on a bank beside such a page, and the bank then, is what
/// it does elsewhere.
fn assert_same<A: Debug + PartialEq>(bank: &TbBank, call: impl Fn(&mut TbBank) -> A) {
    let mut elsewhere = *bank;
    let expected = call(&mut elsewhere);
    for side in SIDES {
        let (answer, after) = beside(side, &[*bank], |banks| call(&mut banks[0]));
        assert_eq!(answer, expected);
        assert!(after == [elsewhere], "{side:?}");
    }
}

/// Checks this of both calls, the list beside such a page, too.
fn assert_runs_same(bank: &TbBank, list: &[u8], budget: u32) {
    for call in RUN_CALLS {
        for side in SIDES {
            let (_, after) = beside(side, list, |list| {
                assert_same(bank, |bank| call(bank, list, budget));
            });
            assert!(after == list, "{side:?}");
        }
    }
}

/// Lists of every length, which are the remainder, or agree with it as far as they go.
#[test]
fn lists_of_every_length() {
    let mut random = Random::default();
    let longest = program(&mut random, 1_024);
    let two = longest.repeat(2);
    for length in (0..40).chain(LONGEST - 5..LONGEST + 10) {
        let mut bank = lent(&waiting_bank(&mut random, &longest));
        for left in [length, 8, LONGEST] {
            bank.left = left as u32;
            for waiting in [0, 1] {
                bank.waiting = waiting;
                assert_runs_same(&bank, &two[..length], 5);
            }
        }
    }
}

/// A bank that says that more is left than it has: what lies after it is not read.
#[test]
fn more_left_than_the_bank_has() {
    let mut random = Random::default();
    let longest = program(&mut random, 1_024);
    let two = longest.repeat(2);
    let mut bank = lent(&waiting_bank(&mut random, &longest));
    for left in [4_097, 4_100, 8_192, 65_536 + 4_096, 1 << 31, u32::MAX] {
        bank.left = left;
        for length in [0, 4, LONGEST, 4_097, 4_100, 8_192] {
            assert_runs_same(&bank, &two[..length], u32::MAX);
        }
    }
}

#[test]
fn arbitrary_lists_and_banks() {
    let mut random = Random::default();
    for _ in 0..200 {
        let (bank, list) = continued(&mut random);
        let budget = random.below(40);
        assert_runs_same(&lent(&bank), &list, budget);
    }
}

#[test]
fn the_other_calls_on_a_bank() {
    let mut random = Random::default();
    for _ in 0..50 {
        let list = program(&mut random, 1_024);
        let waits = lent(&waiting_bank(&mut random, &list));
        let [kind, r1, r2, r3] = [list[0], list[1], list[2], list[3]];
        let byte = random.byte();
        let waits_not = TbBank {
            waiting: 0,
            ..waits
        };
        for bank in [waits, waits_not] {
            assert_same(&bank, |bank| tb_operate(bank, kind, r1, r2, r3));
            assert_same(&bank, |bank| tb_drop(bank));
            assert_same(&bank, |bank| tb_read(bank, byte));
            assert_same(&bank, |bank| tb_write(bank, byte, !0));
            assert_same(&bank, |bank| tb_status(bank));
            assert_same(&bank, |bank| tb_enable(bank, byte));
            assert_same(&bank, |bank| tb_acknowledge(bank, byte));
            assert_same(&bank, |bank| tb_interrupt(bank));
        }
    }
}

/// Checks that a frame answers, and leaves its banks, as it does elsewhere, if the guarantees,
/// and the bank and the list of some channel, lie beside such pages.
fn assert_frame_same(frame: &Frame) {
    let Frame {
        guarantees, cycles, ..
    } = frame;
    let before = frame.banks.each_ref().map(lent);
    let lists = frame.lists.each_ref().map(Vec::as_slice);
    let mut elsewhere = before;
    let expected = tb_frame(elsewhere.each_mut(), lists, guarantees, *cycles);
    for (side, number) in SIDES
        .into_iter()
        .flat_map(|side| [0, 1, 2, 3].map(|n| (side, n)))
    {
        let mut others = before;
        let mut call = |bank: &mut TbBank, list: &[u8], guarantees: &[u32]| {
            let (mut banks, mut lists) = (others.each_mut(), lists);
            (banks[number], lists[number]) = (bank, list);
            tb_frame(banks, lists, guarantees.try_into().expect("four"), *cycles)
        };
        let (((answer, given), list), bank) = beside(side, &[before[number]], |bank| {
            beside(side, lists[number], |list| {
                beside(side, guarantees, |given| call(&mut bank[0], list, given))
            })
        });
        others[number] = bank[0];
        assert_eq!(answer, expected);
        assert!(others == elsewhere && list == lists[number] && given == guarantees);
    }
}

#[test]
fn frames_of_every_sort() {
    let mut random = Random::default();
    for round in 0..150 {
        let make = if round % 3 == 0 { frame } else { good_frame };
        assert_frame_same(&make(&mut random));
    }
}

/// The copy lies where it must: at either end of its pages.
#[test]
fn a_copy_is_beside_such_a_page() {
    for bytes in [1, 7, 4_096, 4_280] {
        let addresses = SIDES.map(|side| {
            let address = |copy: &mut [u8]| copy.as_ptr_range();
            let (range, after) = beside(side, &vec![5; bytes], address);
            assert_eq!(after, vec![5; bytes]);
            match side {
                Side::Before => range.start.addr(),
                Side::After => range.end.addr(),
            }
        });
        assert_eq!(addresses.map(|address| address % 4_096), [0, 0]);
    }
}
