//! What the demands, paper 01 and request 01 of paper 02 say of the register unit,
//! asked of the library; request 09, which sets a status bit by each run, in
//! `status.rs`, request 10, by which a spent run waits, in `waiting.rs`, request 11, four
//! channels in one frame, in `frames.rs`.

use conformance::programs::{bank, cycles, program, FORMS};
use conformance::samples::{for_each, for_each_permutation, Random};
use conformance::unit::lent;
use model::permutation::permuted;
use std::array;
use tigbayon::{butterfly, decode, gather, group, inverse, route, route_groups, scatter};
use tigbayon::{Bank, Controls, End, Gathered, Refusal, Run};

type Outcome = Result<(), Refusal>;

fn random_bank(random: &mut Random) -> Bank {
    lent(&bank(random))
}

/// The bank after a run that ended so, with these operations left.
fn after_a_run(bank: Bank, end: End, left: &[u8]) -> Bank {
    let mut after = bank;
    match end {
        End::Done => after.status |= 0b001,
        End::Spent => {
            after.status |= 0b010;
            (after.waiting, after.left) = (1, left.len() as u32);
            after.list[..left.len()].copy_from_slice(left);
        }
    }
    after
}

/// Performs the operations one after the other and answers the sum of cycles.
fn operate_each(bank: &mut Bank, list: &[u8]) -> Result<u32, Refusal> {
    let mut sum = 0;
    for operation in list.chunks(4) {
        let [kind, r1, r2, r3] = array::from_fn(|place| operation[place]);
        sum += bank.operate(kind, r1, r2, r3)?;
    }
    Ok(sum)
}

/// Checks a law on random banks and lists of up to so many operations.
fn holds(operations: u32, law: impl Fn(&mut Random, Bank, &[u8]) -> Outcome) {
    let mut random = Random::default();
    for _ in 0..500 {
        let length = random.below(operations + 1);
        let list = program(&mut random, length);
        let bank = random_bank(&mut random);
        law(&mut random, bank, &list).expect("not refused");
    }
}

#[test]
fn a_run_with_an_ample_budget_is_its_operations_one_after_the_other() {
    holds(1_024, |random, before, list| {
        let (mut operated, mut ran) = (before, before);
        let cycles = operate_each(&mut operated, list)?;
        let budget = cycles + random.below(2) * random.below(u32::MAX - cycles);
        let answer = ran.run(list, budget)?;
        let (end, count) = (End::Done, list.len() as u32 / 4);
        assert_eq!(
            answer,
            Run {
                end,
                ran: count,
                cycles
            }
        );
        assert_eq!(ran, after_a_run(operated, end, &[]));
        Ok(())
    });
}

/// "Spent means: an operation is left and does not fit."
#[test]
fn a_run_is_its_first_operations_and_is_spent_if_the_next_does_not_fit() {
    holds(200, |random, before, list| {
        let budget = random.below(cycles(list) + 2);
        let (mut operated, mut ran) = (before, before);
        let answer = ran.run(list, budget)?;
        let (first, left) = list.split_at(4 * answer.ran as usize);
        assert_eq!(operate_each(&mut operated, first)?, answer.cycles);
        assert_eq!(ran, after_a_run(operated, answer.end, left));
        assert!(answer.cycles <= budget);
        match answer.end {
            End::Done => assert!(left.is_empty()),
            End::Spent => assert!(cycles(&left[..4]) > budget - answer.cycles),
        }
        Ok(())
    });
}

#[test]
fn each_form_uses_the_cycles_of_the_table() {
    let mut bank = Bank::default();
    for form in &FORMS {
        let operation = form.operation([1, 2, 3]);
        assert_eq!(operate_each(&mut bank, &operation), Ok(form.cycles));
        assert_eq!(bank.run(&operation, form.cycles).map(|run| run.ran), Ok(1));
        assert_eq!(
            bank.run(&operation, form.cycles - 1).map(|run| run.ran),
            Ok(0)
        );
        bank.drop_run();
    }
}

/// "A fresh unit's kind 1 reverses the word."; so does its kind 2.
#[test]
fn a_fresh_unit_reverses_the_word() -> Outcome {
    let mut random = Random::default();
    for _ in 0..1_000 {
        let word = random.word();
        for kind in [1, 2] {
            let mut bank = Bank::default();
            bank.write(2, word)?;
            assert_eq!(bank.operate(kind, 1, 2, 255), Ok(1));
            assert_eq!(bank.read(1), Ok(word.reverse_bits()));
        }
    }
    Ok(())
}

/// Kinds 8 then 3 are kind 6, and 9 then 4 are kind 7, in result and cycles.
#[test]
fn the_static_kinds_after_a_decode_are_the_variable_ones() -> Outcome {
    let mut random = Random::default();
    for _ in 0..5_000 {
        let [r1, r2, r3] = [16; 3].map(|bound| random.below(bound) as u8);
        let before = random_bank(&mut random);
        for [decode, fixed, variable] in [[8, 3, 6], [9, 4, 7]] {
            let (mut one, mut other) = (before, before);
            let cycles = one.operate(variable, r1, r2, r3)?;
            let list = [decode, 0, 0, r3, fixed, r1, r2, r3];
            assert_eq!(operate_each(&mut other, &list)?, cycles);
            assert_eq!(one.general, other.general);
            assert_eq!([one.b, one.ib], [before.b, before.ib]);
        }
    }
    Ok(())
}

/// Of the count of marked bits: "Kinds 6, 7 and 10 of the register unit do not
/// store it."
#[test]
fn kinds_6_7_and_10_write_the_word_alone() -> Outcome {
    type OfMask = fn(u32, u64, u64) -> Result<Gathered, Refusal>;
    const CALLS: [(u8, OfMask); 3] = [(6, gather), (7, scatter), (10, group)];
    let mut random = Random::default();
    for turn in 0..3_000 {
        let [r1, r2, r3] = [16; 3].map(|bound| random.below(bound) as u8);
        let mut before = random_bank(&mut random);
        before.write(r3, [0, u64::MAX, random.word()][turn % 3])?;
        for (kind, call) in CALLS {
            let (mut operated, mut ran, mut expected) = (before, before, before);
            let answer = call(64, before.read(r3)?, before.read(r2)?)?;
            expected.write(r1, answer.word)?;
            operated.operate(kind, r1, r2, r3)?;
            let end = ran.run(&[kind, r1, r2, r3], 3)?.end;
            assert_eq!((operated, ran), (expected, after_a_run(expected, end, &[])));
        }
    }
    Ok(())
}

/// The first register holds stage 1 in its low half and stage 2 in its high
/// half; the others go on so.
fn stages_in(registers: [u64; 3]) -> Controls {
    let halves = registers.map(|register| [register as u32, (register >> 32) as u32]);
    let mut stages = halves.iter().flatten();
    Controls::from(array::from_fn(|_| *stages.next().expect("six halves")))
}

#[test]
fn kinds_8_and_9_hold_what_decode_answers() {
    for_each(64, 20, |mask, _| {
        let mut bank = Bank::default();
        bank.general[3] = mask;
        assert_eq!(bank.run(&[8, 0, 0, 3], 2).map(|run| run.cycles), Ok(2));
        assert_eq!(bank.run(&[9, 0, 0, 3], 2).map(|run| run.cycles), Ok(2));
        let decoded = decode(64, mask).expect("not refused");
        assert_eq!(stages_in(bank.b), decoded.butterfly);
        assert_eq!(stages_in(bank.ib), decoded.inverse);
    });
}

#[test]
fn kinds_1_and_2_are_the_networks_on_the_stages_held() -> Outcome {
    let mut random = Random::default();
    for _ in 0..2_000 {
        let mut bank = random_bank(&mut random);
        let word = bank.read(2)?;
        bank.operate(1, 4, 2, 0)?;
        bank.operate(2, 5, 2, 0)?;
        assert_eq!(butterfly(64, &stages_in(bank.b), word), bank.read(4));
        assert_eq!(inverse(64, &stages_in(bank.ib), word), bank.read(5));
    }
    Ok(())
}

/// Routed controls in registers 4 to 9, the word in register 0: kind 5 four
/// times, then kinds 1 and 2.
#[test]
fn a_list_of_six_operations_permutes_by_routed_controls() {
    const LIST: [[u8; 4]; 6] = [
        [5, 1, 4, 5],
        [5, 2, 6, 0],
        [5, 3, 7, 8],
        [5, 4, 9, 0],
        [1, 0, 0, 0],
        [2, 0, 0, 0],
    ];
    for_each_permutation(64, 5, |permutation, word| {
        let routed = route(64, permutation).expect("not refused");
        let stages = [routed.butterfly.stages, routed.inverse.stages].concat();
        let mut bank = Bank::default();
        bank.general[0] = word;
        for (register, halves) in bank.general[4..].iter_mut().zip(stages.chunks(2)) {
            *register = u64::from(halves[0]) | u64::from(halves[1]) << 32;
        }
        let (end, ran, cycles) = (End::Done, 6, 6);
        assert_eq!(bank.run(&LIST.concat(), 6), Ok(Run { end, ran, cycles }));
        assert_eq!(bank.general[0], permuted(permutation, word));
    });
}

/// Routed masks in registers 4 to 9, the word in register 0: kind 10 six times.
#[test]
fn a_list_of_six_groups_permutes_by_routed_masks() {
    let list: Vec<u8> = (4..10).flat_map(|mask| [10, 0, 0, mask]).collect();
    for_each_permutation(64, 5, |permutation, word| {
        let masks = route_groups(64, permutation).expect("not refused");
        let mut bank = Bank::default();
        bank.general[0] = word;
        bank.general[4..10].copy_from_slice(&masks);
        let (end, ran, cycles) = (End::Done, 6, 18);
        assert_eq!(bank.run(&list, 18), Ok(Run { end, ran, cycles }));
        assert_eq!(bank.general[0], permuted(permutation, word));
    });
}
