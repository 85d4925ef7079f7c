//! Misreadings of request 11 of paper 02, four channels in one frame: the library has none
//! of them, and each would be seen, on as many frames or exactly those that are named.

use conformance::frame::Frame;
use conformance::programs::{by_figures, BEYOND, NO_KIND};
use conformance::schedules::{schedules, Counts, List, Schedule};
use conformance::unit::{continue_run, run, status_bit, Bank, End, Run};
use std::array;

/// Checks on how many of 160,000 frames another reading is seen, by the operations that it
/// says the channels run: four lists of these five, four guarantees of 0, 1, 2 and 4.
fn assert_seen(seen: usize, misread: impl Fn(&Schedule) -> Counts) {
    let lists = [&[][..], &[1], &[3], &[1, 2], &[2, 3]];
    let lists = lists.map(|figures| List::from(figures.to_vec()));
    let mut banks = [tigbayon::Bank::default(); 4];
    let others = schedules(&lists, &[0, 1, 2, 4]).filter(|schedule| {
        let counts = schedule.by_library(&mut banks);
        assert_eq!(counts, schedule.counts());
        counts != misread(schedule)
    });
    assert_eq!(others.count(), seen);
}

/// What the four left, in one sum.
fn sum(schedule: &Schedule) -> u32 {
    schedule.left().iter().sum()
}

/// What each channel runs if after its first turn it runs so many more, by its number and
/// by how many it has run.
fn with_more(schedule: &Schedule, more: impl Fn(usize, usize) -> usize) -> Counts {
    let first = schedule.first();
    array::from_fn(|number| first[number] + more(number, first[number]))
}

/// There is a second turn.
#[test]
fn a_frame_is_not_the_guarantees_alone() {
    assert_seen(140_687, |schedule| schedule.first());
}

/// "In number order": not from the last.
#[test]
fn the_sum_is_not_offered_from_the_last() {
    assert_seen(75_531, |schedule| {
        schedule.offered((0..4).rev(), sum(schedule))
    });
}

/// It is one sum: what a channel takes is no longer offered.
#[test]
fn the_sum_is_not_offered_to_each_in_full() {
    assert_seen(76_963, |schedule| {
        with_more(schedule, |number, from| {
            schedule.more(number, from, sum(schedule))
        })
    });
}

/// "what the four left": a channel that comes later may have left it.
#[test]
fn what_is_left_is_not_offered_before_all_four_ran() {
    assert_seen(96_500, |schedule| {
        let mut sum = 0;
        array::from_fn(|number| {
            let budget = schedule.guarantees[number] + sum;
            let count = schedule.more(number, 0, budget);
            sum = budget - schedule.cycles(number, 0, count);
            count
        })
    });
}

/// "what the four left": those not done too, whose next operation did not fit.
#[test]
fn the_sum_is_not_what_those_done_left() {
    assert_seen(77_393, |schedule| {
        let first = schedule.first();
        let left = schedule.left();
        let is_done = |number: &usize| schedule.is_done(*number, first[*number]);
        schedule.offered(
            0..4,
            (0..4).filter(is_done).map(|number| left[number]).sum(),
        )
    });
}

/// What a channel left is not kept for itself: one that comes before may take it.
#[test]
fn what_one_left_is_not_kept_for_it() {
    assert_seen(42_727, |schedule| {
        let (first, left) = (schedule.first(), schedule.left());
        let is_done = |number: &usize| schedule.is_done(*number, first[*number]);
        let mut shared: u32 = (0..4).filter(is_done).map(|number| left[number]).sum();
        array::from_fn(|number| {
            let own = if is_done(&number) { 0 } else { left[number] };
            let count = first[number] + schedule.more(number, first[number], own + shared);
            let used = schedule.cycles(number, first[number], count);
            shared -= used.saturating_sub(own);
            count
        })
    });
}

/// "offered in number order to those not done": to all of them, not to the first alone.
#[test]
fn the_sum_is_not_offered_to_the_first_alone() {
    assert_seen(55_220, |schedule| {
        let first = schedule.first();
        let not_done = (0..4).find(|&number| !schedule.is_done(number, first[number]));
        schedule.offered(not_done, sum(schedule))
    });
}

/// A channel that cannot take what is left does not keep it from the next.
#[test]
fn the_offer_does_not_end_with_what_does_not_fit() {
    assert_seen(19_294, |schedule| {
        let mut counts = schedule.first();
        let mut sum = sum(schedule);
        for (number, count) in counts.iter_mut().enumerate() {
            let from = *count;
            *count += schedule.more(number, from, sum);
            sum -= schedule.cycles(number, from, *count);
            if !schedule.is_done(number, *count) {
                break;
            }
        }
        counts
    });
}

/// It is not offered in parts: to each as much.
#[test]
fn the_sum_is_not_divided() {
    assert_seen(89_329, |schedule| {
        let first = schedule.first();
        let is_done = |number: &usize| schedule.is_done(*number, first[*number]);
        let others = 4 - (0..4).filter(is_done).count() as u32;
        let part = sum(schedule).checked_div(others).unwrap_or(0);
        with_more(schedule, |number, from| schedule.more(number, from, part))
    });
}

/// Nor an operation at a time: a channel runs on as long as the next one fits.
#[test]
fn the_sum_is_not_offered_an_operation_at_a_time() {
    let in_rounds = |schedule: &Schedule, rounds: usize| {
        let mut counts = schedule.first();
        let mut sum = sum(schedule);
        for turn in 0..4 * rounds {
            let (number, from) = (turn % 4, counts[turn % 4]);
            counts[number] += schedule.more(number, from, sum).min(1);
            sum -= schedule.cycles(number, from, counts[number]);
        }
        counts
    };
    assert_seen(19_933, |schedule| in_rounds(schedule, 1));
    assert_seen(9_530, |schedule| in_rounds(schedule, 2));
}

/// What is offered is no second guarantee: it may be more than the first.
#[test]
fn no_more_than_its_guarantee_is_not_offered() {
    assert_seen(123_245, |schedule| {
        let mut sum = sum(schedule);
        let first = schedule.first();
        array::from_fn(|number| {
            let offered = sum.min(schedule.guarantees[number]);
            let count = first[number] + schedule.more(number, first[number], offered);
            sum -= schedule.cycles(number, first[number], count);
            count
        })
    });
}

/// A channel without a guarantee is one of the four.
#[test]
fn a_channel_without_a_guarantee_is_offered_the_sum() {
    assert_seen(66_894, |schedule| {
        let guaranteed = |number: &usize| schedule.guarantees[*number] > 0;
        schedule.offered((0..4).filter(guaranteed), sum(schedule))
    });
}

/// A guarantee is the channel's own: those before do not take it.
#[test]
fn guarantees_are_not_one_sum_from_the_first() {
    assert_seen(45_343, |schedule| {
        let mut sum: u32 = schedule.guarantees.iter().sum();
        array::from_fn(|number| {
            let count = schedule.more(number, 0, sum);
            sum -= schedule.cycles(number, 0, count);
            count
        })
    });
}

/// In its second turn a channel goes on with the list: it does not begin anew.
#[test]
fn a_second_turn_does_not_begin_anew() {
    assert_seen(60_739, |schedule| {
        let first = schedule.first();
        let mut sum = sum(schedule);
        array::from_fn(|number| {
            if schedule.is_done(number, first[number]) {
                return first[number];
            }
            let more = schedule.more(number, 0, sum);
            sum -= schedule.cycles(number, 0, more);
            first[number] + more
        })
    });
}

/// "to those not done": a channel that is done does not run its list again.
#[test]
fn a_channel_that_is_done_does_not_run_again() {
    assert_seen(82_128, |schedule| {
        let mut sum = sum(schedule);
        let first = schedule.first();
        array::from_fn(|number| {
            let done = schedule.is_done(number, first[number]);
            let from = if done { 0 } else { first[number] };
            let more = schedule.more(number, from, sum);
            sum -= schedule.cycles(number, from, from + more);
            first[number] + more
        })
    });
}

/// What is left after both turns is too little for anyone: to offer it again changes nothing.
#[test]
fn the_sum_may_be_offered_again() {
    assert_seen(0, |schedule| {
        schedule.offered((0..4).chain(0..4), sum(schedule))
    });
}

/// Operations of these cycles on a fresh bank.
fn channel(figures: &[u32]) -> (Bank, Vec<u8>) {
    (Bank::default(), by_figures(figures))
}

/// Channel 0 runs 1 of its cycles and takes 2 and 1 more of the 4 that channel 2 leaves;
/// its last operation does not fit in the 1 left. Channel 1 is done by that, channel 2 by
/// its guarantee, and channel 3 has nothing to run.
fn some_frame() -> Frame {
    let figures = [&[1, 2, 1, 3][..], &[1], &[1, 1], &[]];
    Frame::of(figures.map(channel), [1, 0, 6, 0])
}

/// What a channel of it answers.
fn answer(number: usize) -> Run {
    some_frame().call().result[number]
}

/// "as a run does": of both turns, neither of the first alone, "1 run, 1 cycle", nor of the
/// second, "2 run, 3 cycles", nor as two runs, of which the first ended spent.
#[test]
fn answers_are_of_both_turns() {
    let (end, ran, cycles) = (End::Spent, 3, 4);
    assert_eq!(answer(0), Run { end, ran, cycles });
    let (end, ran, cycles) = (End::Done, 1, 1);
    assert_eq!(answer(1), Run { end, ran, cycles });
}

/// The cycles are those used, not what was guaranteed or offered.
#[test]
fn cycles_are_those_of_the_operations() {
    assert_eq!(
        [0, 1, 2, 3].map(|number| answer(number).cycles),
        [4, 1, 2, 0]
    );
}

/// A channel with nothing to run is done.
#[test]
fn an_empty_list_is_done_without_a_guarantee() {
    assert_eq!((answer(3).end, answer(3).ran), (End::Done, 0));
    let (_, banks) = some_frame().called();
    assert_eq!((banks[3].status, banks[3].waiting), (0b001, 0));
}

/// "one frame has F cycles": what it has beyond the guarantees belongs to no one.
#[test]
fn cycles_that_no_one_is_guaranteed_are_not_offered() {
    let mut frame = Frame::of(
        [channel(&[1]), channel(&[2]), channel(&[3]), channel(&[1])],
        [0; 4],
    );
    for cycles in [0, 1, 7, 1_000, u32::MAX] {
        frame.cycles = cycles;
        let (answer, _) = frame.called();
        assert_eq!(answer.result.map(|run| run.ran), [0; 4]);
    }
}

/// What a frame leaves is not for the next one: "what the four left" is of this frame.
#[test]
fn what_is_left_at_the_end_is_lost() {
    let mut frame = Frame::of(
        [channel(&[3]), channel(&[]), channel(&[]), channel(&[])],
        [2, 0, 0, 0],
    );
    for _ in 0..5 {
        let run = frame.call().result[0];
        assert_eq!((run.end, run.ran, run.cycles), (End::Spent, 0, 0));
    }
}

/// Checks that another reading of the status byte that a frame leaves in some channel is seen
/// exactly on these bytes that were held.
fn assert_status_seen(number: usize, misread: fn(u8) -> u8, seen: fn(u8) -> bool) {
    for held in 0..=255 {
        let mut frame = some_frame();
        frame.banks[number].status = held;
        let (answer, banks) = frame.called();
        let end = answer.result[number].end;
        assert_eq!(banks[number].status, held | status_bit(end));
        assert_eq!(
            banks[number].status != misread(held),
            seen(held),
            "{held:#x}"
        );
    }
}

/// "each bank's status is set once, then": not by each turn. Channel 1 was spent in its first
/// turn, and bit 1 would be seen wherever it was not held before.
#[test]
fn status_is_not_set_by_each_turn() {
    assert_status_seen(1, |held| held | 0b011, |held| held & 0b010 == 0);
}

/// Nor by the first turn alone.
#[test]
fn status_is_not_that_of_the_first_turn() {
    assert_status_seen(1, |held| held | 0b010, |held| held & 0b011 != 0b011);
}

/// It is not that of the frame, as if it were spent because some channel is, or done because
/// one is.
#[test]
fn status_is_not_that_of_another_channel() {
    assert_status_seen(2, |held| held | 0b010, |held| held & 0b011 != 0b011);
    assert_status_seen(0, |held| held | 0b001, |held| held & 0b011 != 0b011);
}

/// Channels that are done set it too, those with nothing to run as well.
#[test]
fn status_is_not_of_those_that_wait_alone() {
    assert_status_seen(2, |held| held, |held| held & 0b001 == 0);
    assert_status_seen(3, |held| held, |held| held & 0b001 == 0);
}

/// "a channel not done at the frame's end waits as in Req 10": for what neither turn ran, not
/// for what the first left, nor for the whole list.
#[test]
fn the_remainder_is_not_that_of_the_first_turn() {
    let (_, banks) = some_frame().called();
    let list = &some_frame().lists[0];
    for from in 0..=4 {
        let mut bank = banks[0];
        let number = continue_run(&mut bank, &list[4 * from..], 3).refusal;
        assert_eq!(number, if from == 3 { 0 } else { 14 });
    }
}

/// Nor is that of the first turn written before: it would be seen in the bytes after the
/// remainder, and in a channel that is done by the second.
#[test]
fn nothing_is_remembered_between_the_turns() {
    let mut frame = some_frame();
    for bank in &mut frame.banks {
        (bank.left, bank.list) = (77, [0xEE; 4_096]);
    }
    let (_, banks) = frame.called();
    assert_eq!(
        (banks[0].left, &banks[0].list[..4]),
        (4, &frame.lists[0][12..])
    );
    assert_eq!(banks[0].list[4..], [0xEE; 4_092]);
    for bank in &banks[1..] {
        assert_eq!((bank.waiting, bank.left, bank.list), (0, 77, [0xEE; 4_096]));
    }
}

/// "at the frame's end": in its second turn a channel is not compared with a remainder again,
/// which its list is not.
#[test]
fn a_second_turn_is_not_turned_back() {
    let mut frame = some_frame();
    let before = frame.banks[0];
    for waiting in [0, 1] {
        frame.banks[0] = Bank { waiting, ..before };
        frame.banks[0].left = 16;
        frame.banks[0].list[..16].copy_from_slice(&frame.lists[0]);
        let (answer, _) = frame.called();
        assert_eq!((answer.refusal, answer.result[0].ran), (0, 3));
    }
}

/// Checks that this frame is refused by this number and leaves its banks as they were, but for
/// bit 2 of each.
fn assert_refused(number: u8, frame: &Frame) {
    let (answer, banks) = frame.called();
    assert_eq!(answer.refusal, number);
    assert_eq!(answer.result, [Run::default(); 4]);
    let expected = frame.banks.map(|bank| Bank {
        status: bank.status | 0b100,
        ..bank
    });
    assert!(banks == expected);
}

/// "sets status bit 2 in all four banks": not in that of the list refused alone, nor in those
/// before it or after it. "Any refusal [..] turns the frame back": not the one channel, and not
/// from there on.
#[test]
fn the_frame_is_turned_back_and_not_a_channel() {
    for number in 0..4 {
        let mut frame = some_frame();
        frame.lists[number] = NO_KIND.to_vec();
        assert_refused(7, &frame);
    }
    let mut frame = some_frame();
    frame.cycles -= 1;
    assert_refused(15, &frame);
}

/// "the lowest number over all four lists": neither that of the first list refused, nor of the
/// last, nor the highest.
#[test]
fn the_number_is_not_that_of_some_list() {
    for [number, other] in [[0, 1], [1, 3], [3, 0], [2, 1]] {
        let mut frame = some_frame();
        frame.lists[number] = NO_KIND.to_vec();
        frame.lists[other] = BEYOND.to_vec();
        assert_refused(7, &frame);
        frame.lists[number] = vec![1];
        assert_refused(4, &frame);
    }
}

/// All four are checked: the third twice and the fourth never, or the first four times, would
/// be seen.
#[test]
fn no_list_is_left_unchecked() {
    for number in 0..4 {
        for (refusal, list) in [(7, &NO_KIND[..]), (8, &BEYOND), (4, &[1, 1])] {
            let mut frame = some_frame();
            frame.lists[number] = list.to_vec();
            assert_refused(refusal, &frame);
        }
        let mut frame = some_frame();
        frame.banks[number].waiting = 1;
        frame.banks[number].left = 8;
        assert_refused(14, &frame);
    }
}

/// A list is checked whole, also what no budget would reach, and also where its channel is
/// guaranteed nothing.
#[test]
fn no_operation_is_left_unchecked() {
    for guarantees in [[0; 4], [1, 0, 6, 0], [9; 4]] {
        for number in 0..4 {
            let mut frame = some_frame();
            (frame.guarantees, frame.cycles) = (guarantees, 36);
            frame.lists[number].extend(BEYOND);
            assert_refused(8, &frame);
        }
    }
}

/// "15, the guarantees sum above F, after 14": 15 at first would be seen on each of these.
#[test]
fn the_number_15_comes_last() {
    for (number, list) in [(4, &[1, 1][..]), (7, &NO_KIND), (8, &BEYOND), (14, &[1; 4])] {
        let mut frame = some_frame();
        frame.lists[1] = list.to_vec();
        frame.banks[1].waiting = u8::from(number == 14);
        frame.cycles = 0;
        assert_refused(number, &frame);
    }
}

/// It is the sum that counts: no guarantee alone, nor the largest, nor what the lists need, nor
/// a sum of 32 bits, by which four of 2^30 would be nothing.
#[test]
fn the_number_15_is_by_the_true_sum() {
    for (guarantees, cycles, number) in [
        ([2, 2, 2, 2], 7, 15),
        ([2, 2, 2, 2], 8, 0),
        ([9, 0, 0, 0], 8, 15),
        ([0, 0, 0, 9], 9, 0),
        ([1 << 30; 4], 0, 15),
        ([1 << 30; 4], u32::MAX, 15),
        ([1 << 31, 1 << 31, 5, 0], 5, 15),
        ([u32::MAX, 1, 0, 0], u32::MAX, 15),
        ([u32::MAX, 0, 0, 1], 0, 15),
        ([u32::MAX; 4], u32::MAX - 3, 15),
        ([u32::MAX, 0, 0, 0], u32::MAX, 0),
    ] {
        let mut frame = some_frame();
        (frame.guarantees, frame.cycles) = (guarantees, cycles);
        match number {
            0 => assert_eq!(frame.call().refusal, 0),
            _ => assert_refused(number, &frame),
        }
    }
}

/// "A list is a continued run where its bank waits": an empty list is not nothing to run, but
/// another list than the remainder; with nothing left it is the remainder.
#[test]
fn a_bank_that_waits_is_not_passed_over() {
    let mut frame = some_frame();
    frame.lists[3].clear();
    (frame.banks[3].waiting, frame.banks[3].left) = (1, 4);
    assert_refused(14, &frame);
    frame.banks[3].left = 0;
    let (answer, banks) = frame.called();
    assert_eq!((answer.refusal, banks[3].waiting), (0, 0));
}

/// "else a new one": that none waits is no refusal here, whatever the bank remembers.
#[test]
fn a_bank_that_does_not_wait_is_not_refused() {
    let mut frame = some_frame();
    for bank in &mut frame.banks {
        (bank.left, bank.list[0]) = (4, 1);
    }
    assert_eq!(frame.called().0, some_frame().call());
}

/// Nor does a bank that waits begin anew with another list, or its own whole one.
#[test]
fn a_run_that_waits_is_not_replaced() {
    let mut frame = some_frame();
    frame.call();
    assert_eq!(frame.banks[0].waiting, 1);
    assert_refused(14, &frame);
    frame.lists[0] = by_figures(&[1]);
    assert_refused(14, &frame);
    assert_eq!(run(&mut frame.banks[0], &frame.lists[0], 9).refusal, 14);
}

/// Waiting is the field that says so, not the status bit of spent runs: to acknowledge that is
/// not to drop the run.
#[test]
fn waiting_is_not_the_status_bit() {
    let mut frame = some_frame();
    frame.call();
    frame.lists[0].drain(..12);
    for bank in &mut frame.banks {
        bank.status = 0;
    }
    assert_eq!(frame.called().0.refusal, 0);
    frame.banks[0].waiting = 0;
    for bank in &mut frame.banks {
        bank.status = 0b010;
    }
    frame.lists[0] = by_figures(&[1]);
    assert_eq!(frame.called().0.refusal, 0);
}
