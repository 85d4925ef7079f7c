//! Runs of the longest list in one turn and in several, and what a turn costs in which
//! nothing is run.

use crate::contest::Contest;
use crate::unit::{self, RunCall, SPENT};
use conformance::programs::{bank, cycles, program};
use conformance::samples::Random;
use std::cell::RefCell;
use tigbayon::{tb_continue, tb_run, TbBank, TbRun};

/// How many operations the longest list has.
pub const OPERATIONS: usize = 1_024;

/// The turns that are compared with one.
const TURNS: u32 = 8;

const IN_RUST: &str = "the same in plain Rust";

/// The two calls that carry operations out.
#[derive(Clone, Copy)]
pub struct Unit {
    run: RunCall,
    continue_run: RunCall,
}

/// The library's.
pub const LIBRARY: Unit = Unit {
    run: tb_run,
    continue_run: tb_continue,
};

const RUST: Unit = Unit {
    run: unit::run,
    continue_run: unit::continue_run,
};

/// Run beside the same in Rust: with a budget that is enough, in turns, and with none.
pub fn run(name: &str) {
    contest(1, |unit, job| job.in_turns(unit)).print(name);
    contest(TURNS, |unit, job| job.in_turns(unit))
        .beside("the library, in one turn", |job| job.in_one_turn(LIBRARY))
        .print(&format!("{name}, {TURNS} turns"));
    contest(1, |unit, job| job.start(unit)).print(&format!("{name}, budget 0"));
}

/// Continue beside the same in Rust, where all operations are left and none fits.
pub fn continue_run(name: &str) {
    contest(1, |unit, job| job.wait_on(unit)).print(&format!("{name}, budget 0"));
}

/// The library beside the same in Rust, on lists that take so many turns. Times are of
/// whole lists.
fn contest(turns: u32, call: fn(Unit, &Job) -> TbRun) -> Contest<Job, TbRun> {
    let make = move |random: &mut Random| Job::of(random, OPERATIONS, turns);
    let library = move |job: &Job| call(LIBRARY, job);
    let peer = move |job: &Job| call(RUST, job);
    let job = make(&mut Random::default());
    let is_same = job.outcome(peer) == job.outcome(library);
    assert!(is_same, "{IN_RUST} leaves the bank as the library does");
    Contest::of_parts(OPERATIONS, make, library)
        .whole()
        .peer(IN_RUST, peer)
}

/// The registers and the two bytes of a bank: what is copied to have a fresh one. What
/// it remembers of a run need not be.
pub struct Registers {
    general: [u64; 16],
    b: [u64; 3],
    ib: [u64; 3],
    status: u8,
    enable: u8,
}

impl Registers {
    /// Random ones.
    pub fn of(random: &mut Random) -> Self {
        let bank = bank(random);
        Registers {
            general: bank.general,
            b: bank.b,
            ib: bank.ib,
            status: bank.status,
            enable: bank.enable,
        }
    }

    /// Copies them to a bank, which then waits or not.
    pub fn copy_to(&self, bank: &mut TbBank, waiting: u8) {
        bank.general = self.general;
        bank.b = self.b;
        bank.ib = self.ib;
        bank.status = self.status;
        bank.enable = self.enable;
        bank.waiting = waiting;
    }
}

/// A list, the registers that it is run on, and a bank that every contender is lent.
pub struct Job {
    list: Vec<u8>,
    budget: u32,
    registers: Registers,
    bank: RefCell<TbBank>,
}

impl Job {
    /// A list of so many operations, with the same budget for each of so many turns: up
    /// to two cycles of it are left by an operation that does not fit.
    pub fn of(random: &mut Random, operations: usize, turns: u32) -> Self {
        let list = program(random, operations as u32);
        let budget = cycles(&list).div_ceil(turns) + 2;
        let registers = Registers::of(random);
        let bank = RefCell::new(waiting_bank(&list));
        Job {
            list,
            budget,
            registers,
            bank,
        }
    }

    /// Runs the list, from its registers, and answers the last turn.
    pub fn in_turns(&self, unit: Unit) -> TbRun {
        self.run(unit, self.budget)
    }

    fn in_one_turn(&self, unit: Unit) -> TbRun {
        self.run(unit, u32::MAX)
    }

    fn run(&self, unit: Unit, budget: u32) -> TbRun {
        let bank = &mut *self.bank.borrow_mut();
        self.registers.copy_to(bank, 0);
        let mut rest = &self.list[..];
        let mut turn = (unit.run)(bank, rest, budget);
        while turn.end == SPENT {
            rest = &rest[4 * turn.ran as usize..];
            turn = (unit.continue_run)(bank, rest, budget);
        }
        turn
    }

    /// Begins the run without a cycle: the whole list is remembered.
    pub fn start(&self, unit: Unit) -> TbRun {
        let bank = &mut *self.bank.borrow_mut();
        bank.waiting = 0;
        (unit.run)(bank, &self.list, 0)
    }

    /// Continues it so, all of it being left.
    pub fn wait_on(&self, unit: Unit) -> TbRun {
        (unit.continue_run)(&mut self.bank.borrow_mut(), &self.list, 0)
    }

    /// What a call answers and makes of the bank, which waits with the whole list before.
    fn outcome(&self, call: impl Fn(&Job) -> TbRun) -> (TbRun, TbBank) {
        self.bank.replace(waiting_bank(&self.list));
        (call(self), *self.bank.borrow())
    }
}

/// A bank that waits with this list.
pub fn waiting_bank(list: &[u8]) -> TbBank {
    let mut bank = TbBank::default();
    let run = tb_run(&mut bank, list, 0);
    assert_eq!(run.end, SPENT);
    bank
}

#[cfg(test)]
mod tests {
    use super::*;

    #[test]
    fn a_job_takes_its_turns() {
        let mut random = Random::default();
        for turns in [1, 2, 4, TURNS, 16] {
            let job = Job::of(&mut random, OPERATIONS, turns);
            let mut bank = waiting_bank(&job.list);
            let ends = (0..turns).map(|_| {
                let rest = &job.list[job.list.len() - bank.left as usize..];
                tb_continue(&mut bank, rest, job.budget).end
            });
            let ends = Vec::from_iter(ends);
            assert_eq!(
                ends.iter().position(|&end| end != SPENT),
                Some(ends.len() - 1)
            );
            assert_eq!(bank.waiting, 0);
        }
    }
}
