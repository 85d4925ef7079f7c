//! Four channels in one frame (request 11 of paper 02).

use crate::refusal::{Answer, FRAME};
use crate::unit::{end, is_no_remainder, list_conditions, operations_of, perform_each, waits};
use crate::unit::{Bank, End, Operation, Run};

/// "Picture, sound, subtitles and automation each have a bank and a list, numbered 0 to 3,
/// and one frame has F cycles. Each channel has a guarantee."
///
/// "each bank's status is set once, then": at the frame's end, or when it is turned back.
///
/// ```
/// use model::frame::frame;
/// use model::unit::{Bank, End, Run};
///
/// // Operations of 1, 1 and 3 cycles; the guarantees leave 0, 2, 1 and 0.
/// let list = [1, 0, 1, 0, 1, 2, 3, 0, 6, 1, 2, 3];
/// let lists = [&list[..], &[], &list[8..], &list[..4]];
/// let mut banks = [Bank::default(); 4];
/// let answer = frame(banks.each_mut(), lists, [1, 2, 1, 0], 4);
///
/// // Of these three channel 0 takes one, and its next operation does not fit in the two
/// // left, nor does that of channel 2. Channel 3 takes one more.
/// let [done, spent] = [End::Done, End::Spent];
/// let run = |(end, ran, cycles)| Run { end, ran, cycles };
/// let expected = [(spent, 2, 2), (done, 0, 0), (spent, 0, 0), (done, 1, 1)];
/// assert_eq!(answer.result, expected.map(run));
/// assert_eq!((banks[0].waiting, banks[0].left, banks[0].status), (1, 4, 0b010));
///
/// let mut banks = [Bank::default(); 4];
/// assert_eq!(frame(banks.each_mut(), lists, [1, 2, 1, 0], 3).refusal, 15);
/// assert_eq!(banks.map(|bank| bank.status), [0b100; 4]);
/// ```
pub fn frame(
    mut banks: [&mut Bank; 4],
    lists: [&[u8]; 4],
    guarantees: [u32; 4],
    cycles: u32,
) -> Answer<[Run; 4]> {
    let conditions = conditions(&banks, lists, guarantees, cycles);
    let answer = Answer::of(&conditions, || two_turns(&mut banks, lists, guarantees));
    for number in 0..4 {
        end(banks[number], lists[number], answer.result[number]);
    }
    answer
}

/// "Any refusal, the lowest number over all four lists, turns the frame back before a channel
/// starts"; "A list is a continued run where its bank waits, else a new one"; "New numbers:
/// 15, the guarantees sum above F, after 14."
fn conditions(
    banks: &[&mut Bank; 4],
    lists: [&[u8]; 4],
    guarantees: [u32; 4],
    cycles: u32,
) -> Vec<(u8, bool)> {
    let mut conditions = Vec::new();
    for number in 0..4 {
        let (bank, list) = (&*banks[number], lists[number]);
        let turned_back = waits(bank) && is_no_remainder(bank, list);
        conditions.extend(list_conditions(list, turned_back));
    }
    let sum: u64 = guarantees.map(u64::from).iter().sum();
    conditions.push((FRAME, sum > u64::from(cycles)));
    conditions
}

/// "In number order each runs within its guarantee, then what the four left of their
/// guarantees is one sum, offered in number order to those not done."
fn two_turns(banks: &mut [&mut Bank; 4], lists: [&[u8]; 4], guarantees: [u32; 4]) -> [Run; 4] {
    let operations = lists.map(operations_of);
    let mut runs = [Run::default(); 4];
    let mut sum = 0;
    for number in 0..4 {
        let guarantee = guarantees[number];
        runs[number] = perform_each(banks[number], &operations[number], guarantee);
        sum += guarantee - runs[number].cycles;
    }
    for number in 0..4 {
        if runs[number].end != End::Done {
            sum -= run_on(banks[number], &operations[number], &mut runs[number], sum);
        }
    }
    runs
}

/// A channel's second turn, with as many cycles offered; answers those that it took.
fn run_on(bank: &mut Bank, operations: &[Operation], run: &mut Run, offered: u32) -> u32 {
    let second = perform_each(bank, &operations[run.ran as usize..], offered);
    run.end = second.end;
    run.ran += second.ran;
    run.cycles += second.cycles;
    second.cycles
}
