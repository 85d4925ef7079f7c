//! Four channels in one frame, beside the model.

use crate::arbitrary::good_frame;
use crate::guards::{only_read, only_read_array};
use crate::samples::Random;
use crate::unit::{continue_run, end_of, run, wrapped_run, Bank, Run, UnitCall};
use model::refusal::Answer;
use tigbayon::{TbBank, TbChannel, TbFrame};

/// What is lent and handed over for a frame.
#[derive(Clone, Debug, PartialEq, Eq)]
pub struct Frame {
    /// The channels' banks, by number.
    pub banks: [Bank; 4],
    /// Their lists.
    pub lists: [Vec<u8>; 4],
    /// Their guarantees.
    pub guarantees: [u32; 4],
    /// The cycles of the frame.
    pub cycles: u32,
}

impl Frame {
    /// A frame of just as many cycles as are guaranteed.
    pub fn of(channels: [(Bank, Vec<u8>); 4], guarantees: [u32; 4]) -> Frame {
        Frame {
            banks: channels.each_ref().map(|channel| channel.0),
            lists: channels.map(|channel| channel.1),
            guarantees,
            cycles: guarantees.iter().sum(),
        }
    }

    /// Makes the call all three ways, panics unless they agree in the answer and in every
    /// register and byte of the banks, hands the answer back and leaves the banks so.
    pub fn call(&mut self) -> Answer<[Run; 4]> {
        let lists = self.lists.each_ref().map(Vec::as_slice);
        let (guarantees, cycles) = (self.guarantees, self.cycles);
        let call = UnitCall {
            raw: |banks: [&mut TbBank; 4]| {
                framed(only_read_each(lists, |lists| {
                    only_read_array(guarantees, |guarantees| {
                        tigbayon::tb_frame(banks, lists, guarantees, cycles)
                    })
                }))
            },
            wrapped: |banks: [&mut tigbayon::Bank; 4]| {
                let answer = tigbayon::frame(banks, lists, guarantees, cycles);
                answer.map(|runs| runs.map(wrapped_run))
            },
            model: |banks: [&mut Bank; 4]| model::frame::frame(banks, lists, guarantees, cycles),
        };
        let name = || format!("frame {lists:?} {guarantees:?} {cycles}");
        call.check_each(name, self.banks.each_mut())
    }

    /// The same on copies of the banks: what it answers, and the banks then.
    pub fn called(&self) -> (Answer<[Run; 4]>, [Bank; 4]) {
        let mut copy = self.clone();
        (copy.call(), copy.banks)
    }

    /// What one channel alone does with this budget, as a continued run if its bank waits
    /// and else as a new one, and its bank then.
    pub fn alone(&self, number: usize, budget: u32) -> (Run, Bank) {
        let mut bank = self.banks[number];
        let call = if bank.waiting == 0 { run } else { continue_run };
        let answer = call(&mut bank, &self.lists[number], budget);
        assert_eq!(answer.refusal, 0);
        (answer.result, bank)
    }
}

/// A frame with this bank, list and guarantee in one of its channels, checked likewise; the
/// other three are carried out. What it answers for that channel.
pub fn among_others(
    random: &mut Random,
    bank: &mut Bank,
    list: &[u8],
    guarantee: u32,
) -> Answer<Run> {
    let mut frame = good_frame(random);
    let number = random.below(4) as usize;
    frame.banks[number] = *bank;
    frame.lists[number] = list.to_vec();
    frame.guarantees[number] = guarantee;
    frame.cycles = u32::MAX;
    let Answer { refusal, result } = frame.call();
    *bank = frame.banks[number];
    let result = result[number];
    Answer { refusal, result }
}

/// What a call answers on copies that it may only read.
fn only_read_each<A>(lists: [&[u8]; 4], call: impl FnOnce([&[u8]; 4]) -> A) -> A {
    let [a, b, c, d] = lists;
    only_read(a, |a| {
        only_read(b, |b| {
            only_read(c, |c| only_read(d, |d| call([a, b, c, d])))
        })
    })
}

fn framed(TbFrame { refusal, channels }: TbFrame) -> Answer<[Run; 4]> {
    let result = channels.map(|TbChannel { end, ran, cycles }| {
        let end = end_of(end);
        Run { end, ran, cycles }
    });
    Answer { refusal, result }
}
