//! Frames carried out, one after the other, on the banks of four channels.

use crate::bank::{ended, polled, told};
use crate::failure::Failure;
use crate::schedule::{Frame, CHANNELS};
use std::array::from_fn;
use std::iter::zip;
use tigbayon::{Bank, Refusal, Run};

/// The banks of the channels, and the frames carried out on them.
#[derive(Default)]
pub struct Frames {
    banks: [Bank; CHANNELS],
    /// The frames.
    pub carried: Vec<Carried>,
}

/// A frame that was carried out.
pub struct Carried {
    /// Its cycles.
    pub cycles: u32,
    /// What the channels had of them.
    pub shares: Vec<Share>,
}

/// What a channel had of a frame.
pub struct Share {
    /// The cycles guaranteed to it.
    pub guarantee: u32,
    /// How many of these it used, in its first turn.
    pub used: u32,
    /// How many it used of the rest, in its second.
    pub from_rest: u32,
    /// The answer, for both turns.
    pub run: Run,
    /// The same in words, with what it left in the bank.
    pub told: String,
}

impl Frames {
    /// Carries out these frames, in turn.
    pub fn perform(&mut self, frames: &[Frame]) -> Result<(), Failure> {
        frames.iter().try_for_each(|frame| self.carry_out(frame))
    }

    /// Goes on with frames like this, the last one, until no channel waits. If one runs
    /// nothing, neither would the next.
    pub fn go_on(&mut self, last: &Frame) -> Result<(), Failure> {
        let next = last.next();
        while self.waits() && self.carried.last().is_some_and(Carried::runs) {
            self.carry_out(&next)?;
        }
        Ok(())
    }

    /// Whether a channel waits.
    fn waits(&self) -> bool {
        self.banks.iter().any(Bank::waits)
    }

    fn carry_out(&mut self, frame: &Frame) -> Result<(), Failure> {
        for (channel, bank) in zip(&frame.channels, &mut self.banks) {
            channel.prepare(bank)?;
        }
        let before = self.banks;
        let lists: [Vec<u8>; CHANNELS] = from_fn(|n| frame.channels[n].list(&before[n]));
        let lists = lists.each_ref().map(Vec::as_slice);
        let guarantees = frame.channels.each_ref().map(|channel| channel.guarantee);
        let runs = tigbayon::frame(self.banks.each_mut(), lists, guarantees, frame.cycles);
        let runs = runs.map_err(|refusal| self.refused(refusal).at(&frame.place))?;
        let mut shares = Vec::new();
        for (n, run) in runs.into_iter().enumerate() {
            let used = first_turn(before[n], lists[n], guarantees[n])?;
            let answer = format!("channel {n}: {}", ended(run));
            shares.push(Share {
                guarantee: guarantees[n],
                used,
                from_rest: run.cycles - used,
                run,
                told: told([answer].into_iter(), &self.banks[n], &before[n]),
            });
        }
        let cycles = frame.cycles;
        self.carried.push(Carried { cycles, shares });
        Ok(())
    }

    /// The failure of a frame that is refused so, with all status bytes below it.
    fn refused(&self, refusal: Refusal) -> Failure {
        let banks = self.banks.iter().enumerate();
        let lines = banks.map(|(n, bank)| format!("channel {n}: {}", polled(bank)));
        Failure::from(refusal).above(Vec::from_iter(lines).join("\n"))
    }
}

/// The cycles of a channel's first turn, by a run within its guarantee alone.
fn first_turn(mut bank: Bank, list: &[u8], guarantee: u32) -> Result<u32, Refusal> {
    let run = match bank.waits() {
        true => bank.continue_run(list, guarantee),
        false => bank.run(list, guarantee),
    };
    run.map(|run| run.cycles)
}

impl Carried {
    /// Whether an operation was run in it.
    fn runs(&self) -> bool {
        self.shares.iter().any(|share| share.run.ran > 0)
    }

    /// Its cycles and their use, in words.
    pub fn used(&self) -> String {
        let sum = |cycles: fn(&Share) -> u32| self.shares.iter().map(cycles).sum::<u32>();
        let guaranteed = sum(|share| share.guarantee);
        let used = sum(|share| share.used);
        format!(
            "{} cycles; guarantees {guaranteed}, used {used}; rest {}, used {}",
            self.cycles,
            guaranteed - used,
            sum(|share| share.from_rest),
        )
    }
}

impl Share {
    /// The cycles that it used, in words.
    pub fn used(&self) -> String {
        let of_guarantee = format!("{} of {}", self.used, self.guarantee);
        match self.from_rest {
            0 => of_guarantee,
            cycles => format!("{of_guarantee}, {cycles} from the rest"),
        }
    }
}
