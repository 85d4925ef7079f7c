//! Request 11 of paper 02, four channels in one frame: library, wrapper and model agree on
//! frames that are carried out, and what follows from the request holds. What is refused is
//! in `refused_frames.rs`.

use conformance::arbitrary::{bring_next, good_frame};
use conformance::frame::Frame;
use conformance::fuzz::any_call;
use conformance::programs::{bank, by_figures, cycles, program, waiting_bank, LONGEST};
use conformance::samples::Random;
use conformance::schedules::{schedules, short_lists};
use conformance::unit::{continue_run, lent, operate, registers, run, status_bit, write};
use conformance::unit::{Bank, End, Run};
use std::array;
use std::iter::zip;

/// A channel that is done, by so many operations and cycles.
fn done(ran: u32, cycles: u32) -> Run {
    let end = End::Done;
    Run { end, ran, cycles }
}

/// One that is not.
fn spent(ran: u32, cycles: u32) -> Run {
    let end = End::Spent;
    Run { end, ran, cycles }
}

/// Performs the operations one after the other, on a bank that does not wait.
fn operate_each(bank: &mut Bank, list: &[u8]) {
    for operation in list.chunks(4) {
        let operation = operation.try_into().expect("four bytes");
        assert_eq!(operate(bank, operation).refusal, 0);
    }
}

/// What a channel's bank must be after so many operations of its list.
fn after(before: &Bank, list: &[u8], ran: u32) -> Bank {
    let (operations, left) = list.split_at(4 * ran as usize);
    let mut bank = *before;
    bank.waiting = 0;
    operate_each(&mut bank, operations);
    if left.is_empty() {
        bank.status |= status_bit(End::Done);
    } else {
        bank.status |= status_bit(End::Spent);
        (bank.waiting, bank.left) = (1, left.len() as u32);
        bank.list[..left.len()].copy_from_slice(left);
    }
    bank
}

/// Makes the call, which must be carried out, and checks that each bank is as after the
/// operations that its channel answers, and their cycles and its end are what it answers.
fn carried_out(frame: &mut Frame) -> [Run; 4] {
    let before = frame.clone();
    let answer = frame.call();
    assert_eq!(answer.refusal, 0);
    for (number, run) in answer.result.into_iter().enumerate() {
        let list = &before.lists[number];
        let (operations, left) = list.split_at(4 * run.ran as usize);
        assert_eq!(run.cycles, cycles(operations));
        assert_eq!(run.end == End::Done, left.is_empty());
        assert!(frame.banks[number] == after(&before.banks[number], list, run.ran));
    }
    answer.result
}

/// Lists of operations of these cycles, on banks that do not wait, but for those of which
/// this number has bits.
fn channels(random: &mut Random, waiting: u32, figures: [&[u32]; 4]) -> [(Bank, Vec<u8>); 4] {
    array::from_fn(|number| {
        let list = by_figures(figures[number]);
        let bank = match waiting >> number & 1 {
            0 => bank(random),
            _ => waiting_bank(random, &list),
        };
        (bank, list)
    })
}

/// Checks what lists of operations of these cycles answer by these guarantees, new and
/// continued runs alike, in frames of just as many cycles, and of more.
fn assert_frame(figures: [&[u32]; 4], guarantees: [u32; 4], expected: [Run; 4]) {
    let mut random = Random::default();
    for waiting in 0..16 {
        let channels = channels(&mut random, waiting, figures);
        let mut frame = Frame::of(channels, guarantees);
        for cycles in [frame.cycles, frame.cycles.saturating_add(1), u32::MAX] {
            frame.cycles = cycles;
            assert_eq!(carried_out(&mut frame.clone()), expected);
        }
    }
}

/// Nothing is left, and nothing is offered.
#[test]
fn each_by_just_its_guarantee() {
    assert_frame(
        [&[1, 2], &[3], &[1, 1, 1], &[2]],
        [3, 3, 3, 2],
        [done(2, 3), done(1, 3), done(3, 3), done(1, 2)],
    );
}

/// Channel 3 leaves 4 of its 5. Channel 0 has run an operation of 2 by its own; of the 4 it
/// takes 3 and 1, and its last one does not fit.
#[test]
fn what_the_last_left_is_offered_to_the_first() {
    assert_frame(
        [&[2, 3, 1, 1], &[], &[], &[1]],
        [2, 0, 0, 5],
        [spent(3, 6), done(0, 0), done(0, 0), done(1, 1)],
    );
}

/// Channel 0 leaves 6 of its 7.
#[test]
fn what_the_first_left_is_offered_to_the_last() {
    assert_frame(
        [&[1], &[], &[], &[3, 3]],
        [7, 0, 0, 0],
        [done(1, 1), done(0, 0), done(0, 0), done(2, 6)],
    );
}

/// Channels 0 to 2 leave 1 each: "what the four left of their guarantees is one sum".
#[test]
fn what_three_left_is_one_sum() {
    assert_frame(
        [&[], &[], &[], &[3]],
        [1, 1, 1, 0],
        [done(0, 0), done(0, 0), done(0, 0), done(1, 3)],
    );
}

/// Channel 0 leaves 4. Channel 1 comes first, and takes 3; the 1 left is too little for its
/// second operation and for that of channel 2.
#[test]
fn the_lower_number_is_offered_it_first() {
    assert_frame(
        [&[], &[3, 3], &[3], &[1]],
        [4, 0, 0, 1],
        [done(0, 0), spent(1, 3), spent(0, 0), done(1, 1)],
    );
}

/// Channel 0 leaves 2. They are too little for channel 1, and go on to channel 2, which takes
/// them; none are left for channel 3.
#[test]
fn what_one_cannot_take_is_offered_to_the_next() {
    assert_frame(
        [&[], &[3], &[2, 1], &[1]],
        [2, 0, 0, 0],
        [done(0, 0), spent(0, 0), spent(1, 2), spent(0, 0)],
    );
}

/// Channel 0 leaves 2 of its own, too little for its operation. With the 1 of channel 1 the
/// sum is 3.
#[test]
fn what_one_left_itself_is_in_the_sum() {
    assert_frame(
        [&[3], &[], &[1], &[1]],
        [2, 1, 0, 0],
        [done(1, 3), done(0, 0), spent(0, 0), spent(0, 0)],
    );
}

/// Channel 1 leaves 2, too little for its operation. Channel 0 comes first and takes them:
/// they are no longer channel 1's own.
#[test]
fn what_one_left_itself_may_be_taken_before() {
    assert_frame(
        [&[2], &[3, 1], &[1], &[]],
        [0, 2, 0, 0],
        [done(1, 2), spent(0, 0), spent(0, 0), done(0, 0)],
    );
}

/// Channel 0 runs 1 of its 3 and leaves 2, channel 1 runs 2 of its 3 and leaves 1. The sum is
/// 3, which channel 0 takes; channel 1 keeps what it has run.
#[test]
fn both_turns_count_together() {
    assert_frame(
        [&[1, 3], &[2, 2], &[], &[]],
        [3, 3, 0, 0],
        [done(2, 4), spent(1, 2), done(0, 0), done(0, 0)],
    );
}

/// Channel 2 leaves 7 of its 10. Channel 0 takes 2, 3 and 1 of them, and its next 2 do not
/// fit in the 1 left, which channel 3 takes.
#[test]
fn a_second_turn_of_several_operations() {
    assert_frame(
        [&[1, 2, 3, 1, 2], &[], &[3], &[1, 1]],
        [1, 0, 10, 0],
        [spent(4, 7), done(0, 0), done(1, 3), spent(1, 1)],
    );
}

/// No operation is left in four empty lists, and none fits in four guarantees of 0, however
/// many cycles the frame has.
#[test]
fn nothing_to_run_and_nothing_to_run_by() {
    assert_frame([&[]; 4], [0; 4], [done(0, 0); 4]);
    assert_frame([&[]; 4], [9, 0, 7, 1 << 31], [done(0, 0); 4]);
    assert_frame([&[1], &[2, 1], &[3], &[1, 1]], [0; 4], [spent(0, 0); 4]);
}

/// Every frame of four lists of up to two operations, and of guarantees up to 3.
#[test]
fn every_small_frame() {
    let lists = short_lists();
    let mut banks = [lent(&bank(&mut Random::default())); 4];
    let mut count = 0;
    for schedule in schedules(&lists, &[0, 1, 2, 3]) {
        assert_eq!(
            schedule.by_library(&mut banks),
            schedule.counts(),
            "{schedule:?}"
        );
        count += 1;
    }
    assert_eq!(count, 13_u32.pow(4) * 4_u32.pow(4));
}

/// Rows 10 and 10b of paper 01 as channel 2: with 2 cycles and one that channel 3 leaves,
/// "done, 2 run, 3 cycles, register 1 = 0x1A"; without that, "spent, 1 run, 2 cycles, register
/// 1 = 0", and in the next frame the rest.
#[test]
fn rows_10_and_10b_in_frames() {
    let list = [8, 0, 0, 3, 3, 1, 2, 3];
    let mut frame = Frame::of(array::from_fn(|_| (Bank::default(), vec![])), [0, 0, 2, 1]);
    frame.lists[2] = list.to_vec();
    frame.banks[2].general[2..4].copy_from_slice(&[0xB6, 0xAD]);

    let mut other = frame.clone();
    assert_eq!(carried_out(&mut other)[2], done(2, 3));
    assert_eq!(
        (other.banks[2].general[1], other.banks[2].status),
        (0x1A, 0b001)
    );

    frame.guarantees[3] = 0;
    assert_eq!(carried_out(&mut frame)[2], spent(1, 2));
    let bank = &frame.banks[2];
    assert_eq!((bank.general[1], bank.status), (0, 0b010));
    assert_eq!(lent(bank).remainder(), Some(&list[4..]));

    frame.lists[2] = list[4..].to_vec();
    assert_eq!(carried_out(&mut frame)[2], done(1, 1));
    let bank = &frame.banks[2];
    assert_eq!(
        (bank.general[1], bank.status, bank.waiting),
        (0x1A, 0b011, 0)
    );
}

/// "each bank's status is set once, then": a channel that is spent in its first turn and done
/// in its second sets bit 0 alone, one that is spent in both sets bit 1, whatever the byte
/// holds; channels of a frame may end otherwise each.
#[test]
fn status_on_every_byte() {
    let mut random = Random::default();
    for held in 0..=255 {
        let channels = channels(&mut random, held, [&[1, 2], &[3, 3], &[], &[1]]);
        let mut frame = Frame::of(channels, [1, 0, 2, 1]);
        for bank in &mut frame.banks {
            bank.status = held as u8;
        }
        let expected = [done(2, 3), spent(0, 0), done(0, 0), done(1, 1)];
        assert_eq!(carried_out(&mut frame), expected);
        let bits = [0b001, 0b010, 0b001, 0b001];
        let expected = bits.map(|bit| held as u8 | bit);
        assert_eq!(frame.banks.map(|bank| bank.status), expected);
    }
}

/// The remainder is written once: after the first turn 12 bytes are left, after the second 8,
/// and the 4 after these stay.
#[test]
fn a_remainder_is_that_of_both_turns() {
    let mut random = Random::default();
    let mut channels = channels(&mut random, 0, [&[1, 2, 1, 2], &[], &[], &[]]);
    let (bank, list) = &mut channels[0];
    bank.list = [0xEE; LONGEST];
    let list = list.clone();
    let mut frame = Frame::of(channels, [1, 0, 2, 0]);
    assert_eq!(carried_out(&mut frame)[0], spent(2, 3));
    let bank = &frame.banks[0];
    assert_eq!((bank.waiting, bank.left), (1, 8));
    assert_eq!(bank.list[..8], list[8..]);
    assert_eq!(bank.list[8..], [0xEE; LONGEST - 8]);
}

/// A channel that is done, in its first turn or in its second, leaves what was remembered as
/// it was, but that it does not wait.
#[test]
fn a_channel_that_is_done_remembers_nothing() {
    let mut random = Random::default();
    for waiting in 0..16 {
        let channels = channels(&mut random, waiting, [&[1, 2], &[3, 3], &[1], &[]]);
        let mut frame = Frame::of(channels, [1, 4, 7, 0]);
        let before = frame.banks;
        let expected = [done(2, 3), done(2, 6), done(1, 1), done(0, 0)];
        assert_eq!(carried_out(&mut frame), expected);
        for (bank, before) in zip(&frame.banks, &before) {
            assert_eq!((bank.waiting, bank.left), (0, before.left));
            assert!(bank.list == before.list);
        }
    }
}

/// Nothing left, as no run leaves it: the empty list is the remainder, and is done.
#[test]
fn an_empty_remainder_is_done() {
    let mut random = Random::default();
    let channels = array::from_fn(|_| (waiting_bank(&mut random, &[]), vec![]));
    let mut frame = Frame::of(channels, [0, 3, 0, 1]);
    assert_eq!(carried_out(&mut frame), [done(0, 0); 4]);
    assert!(frame.banks.iter().all(|bank| bank.waiting == 0));
}

/// Any number but 0 waits, in any channel.
#[test]
fn every_byte_waits_but_0() {
    let mut random = Random::default();
    for waiting in 1..=255 {
        let mut channels = channels(&mut random, 15, [&[1, 1, 1]; 4]);
        for (bank, _) in &mut channels {
            bank.waiting = waiting;
        }
        let mut frame = Frame::of(channels, [1, 2, 3, 0]);
        let expected = [spent(1, 1), spent(2, 2), done(3, 3), spent(0, 0)];
        assert_eq!(carried_out(&mut frame), expected);
        assert_eq!(frame.banks.map(|bank| bank.waiting), [1, 1, 0, 1]);
    }
}

/// Lists may be one and the same.
#[test]
fn four_channels_of_one_list() {
    let mut random = Random::default();
    let list = program(&mut random, 9);
    let total = cycles(&list);
    let channels = array::from_fn(|_| (bank(&mut random), list.clone()));
    let frame = Frame::of(channels, [total, 2, 5, total + 6]);
    let (expected, banks) = frame.called();
    let mut copies = frame.banks.each_ref().map(lent);
    let answer = tigbayon::frame(
        copies.each_mut(),
        [&list; 4],
        frame.guarantees,
        frame.cycles,
    );
    let counts = answer.map(|runs| runs.map(|run| (run.ran, run.cycles)));
    assert_eq!(counts, Ok(expected.result.map(|run| (run.ran, run.cycles))));
    assert!(copies == banks.each_ref().map(lent));
}

/// Checks a law on frames of every sort that are carried out: the frame before, what it
/// answers, and its banks then.
fn holds(frames: u32, law: impl Fn(&mut Random, &Frame, [Run; 4], [Bank; 4])) {
    let mut random = Random::default();
    for _ in 0..frames {
        let frame = good_frame(&mut random);
        let mut copy = frame.clone();
        let runs = carried_out(&mut copy);
        law(&mut random, &frame, runs, copy.banks);
    }
}

/// The cycles that the channels of a frame used.
fn used(runs: [Run; 4]) -> u64 {
    runs.iter().map(|run| u64::from(run.cycles)).sum()
}

/// "never exceeds F", nor what is guaranteed.
#[test]
fn a_frame_uses_no_more_than_is_guaranteed() {
    holds(2_000, |_, frame, runs, _| {
        let sum = frame.guarantees.map(u64::from).iter().sum();
        assert!(used(runs) <= sum && sum <= frame.cycles.into());
    });
}

/// Nor does it leave more than it must: the next operation of a channel that is not done does
/// not fit in what is left.
#[test]
fn what_is_left_is_too_little_for_those_not_done() {
    holds(2_000, |_, frame, runs, _| {
        let sum: u64 = frame.guarantees.map(u64::from).iter().sum();
        for (run, list) in zip(runs, &frame.lists) {
            if let Some(next) = list.chunks(4).nth(run.ran as usize) {
                assert!(u64::from(cycles(next)) > sum - used(runs));
            }
        }
    });
}

/// "A channel must get through at least the operations that its guarantee alone would carry."
/// Where these are all, its bank is that of its run alone.
#[test]
fn each_channel_runs_what_its_guarantee_alone_carries() {
    holds(2_000, |_, frame, runs, banks| {
        for number in 0..4 {
            let (alone, bank) = frame.alone(number, frame.guarantees[number]);
            assert!(runs[number].ran >= alone.ran);
            if alone.end == End::Done {
                assert_eq!(runs[number], alone);
                assert!(banks[number] == bank);
            }
        }
    });
}

/// Each channel's answer and bank are those of one run of its list, continued or not, with as
/// many cycles as it used.
#[test]
fn each_channel_is_one_run() {
    holds(2_000, |_, frame, runs, banks| {
        for number in 0..4 {
            let (alone, bank) = frame.alone(number, runs[number].cycles);
            assert_eq!(runs[number], alone);
            assert!(banks[number] == bank);
        }
    });
}

/// "Two frames carried out that bring a channel the same bank, list and guarantee, whatever
/// the other three bring, leave it the same registers if it ran equally many operations in
/// both": the whole bank, in whatever number and with whatever guarantee.
#[test]
fn channels_are_apart_from_each_other() {
    let mut random = Random::default();
    let mut equal = 0;
    for round in 0..4_000 {
        let mut one = good_frame(&mut random);
        let mut other = good_frame(&mut random);
        let number = round % 4;
        let place = if round % 8 < 4 {
            number
        } else {
            random.below(4) as usize
        };
        other.banks[place] = one.banks[number];
        other.lists[place] = one.lists[number].clone();
        if place == number {
            other.guarantees[place] = one.guarantees[number];
        }
        other.cycles = u32::MAX;
        let [runs, other_runs] = [&mut one, &mut other].map(|frame| {
            let answer = frame.call();
            assert_eq!(answer.refusal, 0);
            answer.result
        });
        if runs[number].ran == other_runs[place].ran {
            assert_eq!(runs[number], other_runs[place]);
            assert!(one.banks[number] == other.banks[place]);
            equal += 1;
        }
    }
    assert!(equal > 1_000, "{equal}");
}

/// Brings frames, of these lists at first and then of what is left, until no bank waits, and
/// makes some calls between.
fn until_none_waits(
    random: &mut Random,
    frame: &mut Frame,
    mut meanwhile: impl FnMut(&mut Random, usize, &mut Bank, &mut Vec<u8>),
) {
    loop {
        frame.guarantees = [(); 4].map(|()| random.below(6));
        frame.cycles = frame.guarantees.iter().sum::<u32>() + random.below(3);
        let runs = carried_out(frame);
        if runs.iter().all(|run| run.end == End::Done) {
            return;
        }
        for (number, run) in runs.into_iter().enumerate() {
            let (bank, list) = (&mut frame.banks[number], &mut frame.lists[number]);
            list.drain(..4 * run.ran as usize);
            meanwhile(random, number, bank, list);
        }
    }
}

/// A frame of new runs of so many operations at most.
fn new_frame(random: &mut Random, operations: u32) -> Frame {
    let channels = array::from_fn(|_| {
        let count = random.below(operations + 1);
        (bank(random), program(random, count))
    });
    Frame::of(channels, [0; 4])
}

/// Request 10 in frames: "continuing until done leaves the general and settings registers that
/// one run with an ample budget leaves", of each channel.
#[test]
fn frames_until_none_waits_are_one_run_each() {
    let mut random = Random::default();
    for _ in 0..100 {
        let mut frame = new_frame(&mut random, 30);
        let ample = array::from_fn(|number| frame.alone(number, u32::MAX).1);
        until_none_waits(&mut random, &mut frame, |_, _, _, _| ());
        assert_eq!(
            frame.banks.each_ref().map(registers),
            ample.each_ref().map(registers)
        );
    }
}

/// The same with a run of its own between for a channel that waits: frames and `tb_continue`
/// go on with one another's remainders.
#[test]
fn frames_and_continued_runs_in_turn_are_one_run_each() {
    let mut random = Random::default();
    for _ in 0..100 {
        let mut frame = new_frame(&mut random, 30);
        let ample = array::from_fn(|number| frame.alone(number, u32::MAX).1);
        until_none_waits(&mut random, &mut frame, |random, _, bank, list| {
            if bank.waiting != 0 && random.below(2) == 0 {
                assert_eq!(run(bank, list, 0).refusal, 14);
                let answer = continue_run(bank, list, random.below(6));
                assert_eq!(answer.refusal, 0);
                list.drain(..4 * answer.result.ran as usize);
            }
        });
        assert_eq!(
            frame.banks.each_ref().map(registers),
            ample.each_ref().map(registers)
        );
    }
}

/// What is written between two frames the operations still to come see, "just as if the write
/// stood in the list at that point".
#[test]
fn with_writes_between_as_if_they_stood_in_the_lists() {
    let mut random = Random::default();
    let mut writes = 0;
    for _ in 0..100 {
        let mut frame = new_frame(&mut random, 20);
        let lists = frame.lists.clone();
        let mut alone = frame.banks;
        let mut made = [0; 4];
        until_none_waits(&mut random, &mut frame, |random, channel, bank, list| {
            let ran = lists[channel].len() - list.len();
            operate_each(&mut alone[channel], &lists[channel][made[channel]..ran]);
            made[channel] = ran;
            let (number, value) = (random.below(16) as u8, random.word());
            for bank in [bank, &mut alone[channel]] {
                assert_eq!(write(bank, number, value).refusal, 0);
            }
            writes += 1;
        });
        for channel in 0..4 {
            operate_each(&mut alone[channel], &lists[channel][made[channel]..]);
        }
        assert_eq!(
            frame.banks.each_ref().map(registers),
            alone.each_ref().map(registers)
        );
    }
    assert!(writes > 1_000, "{writes}");
}

/// Frames one after the other on the same four banks, with other calls between.
#[test]
fn frames_and_other_calls_in_turn() {
    let mut random = Random::default();
    let mut numbers = [0; 16];
    for _ in 0..100 {
        let mut frame = Frame::of(array::from_fn(|_| (Bank::default(), vec![])), [0; 4]);
        for _ in 0..30 {
            let number = random.below(4) as usize;
            any_call(&mut random, &mut frame.banks[number]);
            bring_next(&mut random, &mut frame);
            frame.guarantees = [(); 4].map(|()| random.below(9));
            frame.cycles = frame
                .guarantees
                .iter()
                .sum::<u32>()
                .saturating_sub(random.below(9) / 8);
            numbers[usize::from(frame.call().refusal)] += 1;
        }
    }
    assert!([0, 14, 15].iter().all(|&n| numbers[n] > 100), "{numbers:?}");
}

/// Four lists of 1,024 operations: in their guarantees, by the sum, and not at all.
#[test]
fn the_longest_lists() {
    let mut random = Random::default();
    let lists = [(); 4].map(|()| program(&mut random, 1_024));
    let [a, b, c, d] = lists.each_ref().map(|list| cycles(list));
    for guarantees in [
        [a, b, c, d],
        [0, 0, 0, a + b + c + d],
        [a + b + c + d - 1, 0, 0, 0],
        [a / 2, b / 3, c / 4, d + 700],
        [0, 1, 2, 3],
    ] {
        for waits in [false, true] {
            let channels = lists.each_ref().map(|list| match waits {
                true => (waiting_bank(&mut random, list), list.clone()),
                false => (bank(&mut random), list.clone()),
            });
            carried_out(&mut Frame::of(channels, guarantees));
        }
    }
}

/// The most that can be offered and taken: three times 1,024 operations of 3 cycles, by what the
/// fourth channel leaves; with a cycle less the last operation of all does not fit.
#[test]
fn the_most_cycles() {
    let mut random = Random::default();
    let list = [7, 1, 2, 3].repeat(1_024);
    for place in 0..4 {
        for (guarantee, last) in [(9_216, done(1_024, 3_072)), (9_215, spent(1_023, 3_069))] {
            let mut channels = array::from_fn(|_| (bank(&mut random), list.clone()));
            channels[place].1.clear();
            let mut guarantees = [0; 4];
            guarantees[place] = guarantee;
            let mut expected = [done(1_024, 3_072); 4];
            expected[if place == 3 { 2 } else { 3 }] = last;
            expected[place] = done(0, 0);
            let answer = carried_out(&mut Frame::of(channels, guarantees));
            assert_eq!(answer, expected);
        }
    }
}

/// 1,024 operations of one cycle, of which each number is run in the first turn, and each in
/// the second.
#[test]
fn the_longest_list_cut_at_each_operation() {
    let list: Vec<u8> = [5, 1, 2, 3].repeat(1_024);
    let mut random = Random::default();
    let channels = array::from_fn(|_| (bank(&mut random), vec![]));
    let mut frame = Frame::of(channels, [0; 4]);
    frame.cycles = u32::MAX;
    for first in 0..=1_024 {
        let second = random.below(1_025);
        let [channel, other] = [first % 4, (first + 1) % 4].map(|number| number as usize);
        let mut frame = frame.clone();
        frame.lists[channel] = list.clone();
        (frame.guarantees[channel], frame.guarantees[other]) = (first, second);
        let ran = (first + second).min(1_024);
        let expected = if ran == 1_024 { done } else { spent };
        assert_eq!(carried_out(&mut frame)[channel], expected(ran, ran));
    }
}

/// Each high bit of a guarantee alone is enough for short lists, in whatever channel; so are
/// two guarantees whose sum is the largest number.
#[test]
fn the_largest_guarantees() {
    for bit in 4..32 {
        for other in [0, u32::MAX - (1 << bit)] {
            for place in 0..4 {
                let mut guarantees = [1 << bit, other, 0, 0];
                guarantees.rotate_right(place);
                assert_frame(
                    [&[3, 3], &[1, 2], &[2], &[1, 1, 1]],
                    guarantees,
                    [done(2, 6), done(2, 3), done(1, 2), done(3, 3)],
                );
            }
        }
    }
}

/// So is each high bit of the sum alone, which a channel leaves that has nothing to run.
#[test]
fn the_largest_sums() {
    for bit in 4..32 {
        for place in 0..4 {
            let mut guarantees = [1 << bit, 0, 0, 0];
            guarantees.rotate_right(place);
            let mut figures = [&[][..], &[3, 3], &[1, 2], &[2]];
            figures.rotate_right(place);
            let mut expected = [done(0, 0), done(2, 6), done(2, 3), done(1, 2)];
            expected.rotate_right(place);
            assert_frame(figures, guarantees, expected);
        }
    }
}
