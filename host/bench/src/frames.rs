//! Frames of four channels beside the same lists by single runs, and by a run and a
//! continuation each.

use crate::contest::Contest;
use crate::unit::SPENT;
use crate::waiting::{waiting_bank, Registers, OPERATIONS};
use conformance::programs::{cycles, program};
use conformance::samples::Random;
use std::array::from_fn;
use std::cell::{RefCell, RefMut};
use tigbayon::{tb_continue, tb_frame, tb_run, TbBank, TbChannel, TbRun};

const RUNS: &str = "a run each";
const TURNS: &str = "a run and a continuation each";

/// How channels are made, with so many operations a list.
pub type Make = fn(&mut Random, usize) -> Channels;

/// A way to run them.
pub type Call = fn(&Channels) -> [TbChannel; 4];

/// Frames beside the same by runs, of random operations of all kinds. Times are of whole
/// frames.
pub fn frame(name: &str) {
    let rows: [(&str, Make, usize, &str, Call); 6] = [
        ("lists of 0", Channels::ample, 0, RUNS, Channels::in_runs),
        ("lists of 1", Channels::ample, 1, RUNS, Channels::in_runs),
        (
            "lists of 1,024",
            Channels::ample,
            OPERATIONS,
            RUNS,
            Channels::in_runs,
        ),
        (
            "continued",
            Channels::continued,
            OPERATIONS,
            "a continuation each",
            Channels::in_runs,
        ),
        (
            "half guaranteed",
            Channels::halved,
            OPERATIONS,
            TURNS,
            Channels::in_turns,
        ),
        (
            "half from the rest",
            Channels::from_rest,
            OPERATIONS,
            TURNS,
            Channels::in_turns,
        ),
    ];
    for (said, make, operations, peer, call) in rows {
        let channels = move |random: &mut Random| make(random, operations);
        Contest::of_parts(parts(operations), channels, Channels::in_a_frame as Call)
            .whole()
            .alike(peer, call)
            .print(&format!("{name}, {said}"));
    }
}

/// The parts of an input with so many operations a list: there are few, since each is
/// large.
pub fn parts(operations: usize) -> usize {
    4 * operations.max(64)
}

/// Four lists with their guarantees, the registers that they are run on, and banks that
/// every contender is lent.
pub struct Channels {
    lists: [Vec<u8>; 4],
    guarantees: [u32; 4],
    registers: [Registers; 4],
    banks: RefCell<[TbBank; 4]>,
    /// Whether the banks wait, with these lists.
    waiting: bool,
}

impl Channels {
    /// Lists of so many operations, each with all the cycles that it needs guaranteed.
    pub fn ample(random: &mut Random, operations: usize) -> Self {
        let lists = from_fn(|_| program(random, operations as u32));
        Channels {
            guarantees: lists.each_ref().map(|list| cycles(list)),
            lists,
            registers: from_fn(|_| Registers::of(random)),
            banks: RefCell::default(),
            waiting: false,
        }
    }

    /// The same, where each bank waits with its list.
    pub fn continued(random: &mut Random, operations: usize) -> Self {
        let channels = Channels::ample(random, operations);
        let banks = channels.lists.each_ref().map(|list| match list.is_empty() {
            true => TbBank::default(),
            false => waiting_bank(list),
        });
        Channels {
            banks: RefCell::new(banks),
            waiting: true,
            ..channels
        }
    }

    /// The first with half of them: each has a second turn, in the few cycles that
    /// operations which did not fit have left.
    pub fn halved(random: &mut Random, operations: usize) -> Self {
        let channels = Channels::ample(random, operations);
        let guarantees = channels.guarantees.map(|cycles| cycles / 2);
        Channels {
            guarantees,
            ..channels
        }
    }

    /// The same, but that channel 3 brings nothing, and leaves the others what they need.
    pub fn from_rest(random: &mut Random, operations: usize) -> Self {
        let mut channels = Channels::halved(random, operations);
        channels.lists[3].clear();
        channels.guarantees[3] = channels.lists.iter().map(|list| cycles(list)).sum();
        channels
    }

    /// By one frame.
    pub fn in_a_frame(&self) -> [TbChannel; 4] {
        let cycles = self.guarantees.iter().sum();
        let lists = self.lists.each_ref().map(Vec::as_slice);
        let banks = &mut *self.fresh();
        tb_frame(banks.each_mut(), lists, &self.guarantees, cycles).channels
    }

    /// By a run of each list within its guarantee, or a continuation.
    pub fn in_runs(&self) -> [TbChannel; 4] {
        let banks = &mut *self.fresh();
        let call = if self.waiting { tb_continue } else { tb_run };
        from_fn(|n| channel(call(&mut banks[n], &self.lists[n], self.guarantees[n])))
    }

    /// The same, then those that are not done continued in turn within what all have left.
    pub fn in_turns(&self) -> [TbChannel; 4] {
        let mut channels = self.in_runs();
        let banks = &mut *self.banks.borrow_mut();
        let mut rest = self.guarantees.iter().sum::<u32>();
        channels.iter().for_each(|channel| rest -= channel.cycles);
        for (n, channel) in channels.iter_mut().enumerate() {
            if channel.end == SPENT {
                let left = &self.lists[n][4 * channel.ran as usize..];
                let turn = tb_continue(&mut banks[n], left, rest);
                rest -= turn.cycles;
                channel.end = turn.end;
                channel.ran += turn.ran;
                channel.cycles += turn.cycles;
            }
        }
        channels
    }

    /// The banks, with its registers. Those of continued lists keep what they remember.
    fn fresh(&self) -> RefMut<'_, [TbBank; 4]> {
        let mut banks = self.banks.borrow_mut();
        for (registers, bank) in self.registers.iter().zip(&mut *banks) {
            registers.copy_to(bank, self.waiting.into());
        }
        banks
    }
}

/// What a run answers, for a channel.
fn channel(run: TbRun) -> TbChannel {
    TbChannel {
        end: run.end,
        ran: run.ran,
        cycles: run.cycles,
    }
}

#[cfg(test)]
mod tests {
    use super::*;
    use crate::unit::DONE;

    /// The words that a call leaves in the banks.
    fn left(channels: &Channels, call: Call) -> [([u64; 16], [[u64; 3]; 2]); 4] {
        call(channels);
        let banks = channels.banks.borrow();
        banks.map(|bank| (bank.general, [bank.b, bank.ib]))
    }

    fn assert_same(make: Make, operations: usize, ends: [u8; 4], alone: [u8; 4]) {
        let mut random = Random::default();
        for _ in 0..20 {
            let channels = make(&mut random, operations);
            let frame = channels.in_a_frame();
            assert_eq!(frame, channels.in_turns());
            assert_eq!(frame.map(|channel| channel.end), ends);
            assert_eq!(channels.in_runs().map(|channel| channel.end), alone);
            assert_eq!(
                left(&channels, Channels::in_a_frame),
                left(&channels, Channels::in_turns)
            );
        }
    }

    /// Frames leave the words that runs and continuations do; only ample guarantees are
    /// enough by themselves.
    #[test]
    fn channels_take_their_turns() {
        let (done, spent) = ([DONE; 4], [SPENT; 4]);
        for operations in [0, 1, 16, OPERATIONS] {
            assert_same(Channels::ample, operations, done, done);
            assert_same(Channels::continued, operations, done, done);
        }
        for operations in [16, OPERATIONS] {
            assert_same(Channels::halved, operations, spent, spent);
            let alone = [SPENT, SPENT, SPENT, DONE];
            assert_same(Channels::from_rest, operations, done, alone);
        }
    }
}
