//! Frames by the cycles of their operations alone: how many of them each channel runs.

use crate::programs::by_figures;
use std::array;
use tigbayon::{tb_frame, Bank};

/// A list of operations, and the cycles of each.
#[derive(Debug)]
pub struct List {
    figures: Vec<u32>,
    operations: Vec<u8>,
}

impl From<Vec<u32>> for List {
    fn from(figures: Vec<u32>) -> Self {
        let operations = by_figures(&figures);
        List {
            figures,
            operations,
        }
    }
}

/// Every list of at most two operations.
pub fn short_lists() -> Vec<List> {
    let figures = [1, 2, 3];
    let mut lists = vec![vec![]];
    for one in figures {
        lists.push(vec![one]);
        lists.extend(figures.map(|two| vec![one, two]));
    }
    lists.into_iter().map(List::from).collect()
}

/// How many operations each channel runs.
pub type Counts = [usize; 4];

/// A frame of just as many cycles as are guaranteed, on banks that do not wait.
#[derive(Clone, Copy, Debug)]
pub struct Schedule<'a> {
    /// The channels' lists.
    pub lists: [&'a List; 4],
    /// Their guarantees.
    pub guarantees: [u32; 4],
}

/// Every frame of four of these lists and four of these guarantees.
pub fn schedules<'a>(
    lists: &'a [List],
    guarantees: &'a [u32],
) -> impl Iterator<Item = Schedule<'a>> {
    fours(lists.len()).flat_map(move |list| {
        fours(guarantees.len()).map(move |guarantee| Schedule {
            lists: list.map(|place| &lists[place]),
            guarantees: guarantee.map(|place| guarantees[place]),
        })
    })
}

/// Every four numbers below a bound.
fn fours(bound: usize) -> impl Iterator<Item = [usize; 4]> {
    let digit = move |all: usize, place: u32| all / bound.pow(place) % bound;
    (0..bound.pow(4)).map(move |all| [0, 1, 2, 3].map(|place| digit(all, place)))
}

impl Schedule<'_> {
    /// How many operations of a channel, after so many, fit in a budget one after the
    /// other.
    pub fn more(&self, number: usize, after: usize, budget: u32) -> usize {
        let figures = &self.lists[number].figures[after..];
        let fits = |count: &usize| figures[..*count].iter().sum::<u32>() <= budget;
        (0..=figures.len()).rev().find(fits).expect("0 operations")
    }

    /// How many operations of each channel fit in its guarantee.
    pub fn first(&self) -> Counts {
        array::from_fn(|number| self.more(number, 0, self.guarantees[number]))
    }

    /// The cycles of a channel's operations from one to another.
    pub fn cycles(&self, number: usize, from: usize, to: usize) -> u32 {
        self.lists[number].figures[from..to].iter().sum()
    }

    /// What the four left of their guarantees in their first turn.
    pub fn left(&self) -> [u32; 4] {
        let first = self.first();
        array::from_fn(|number| self.guarantees[number] - self.cycles(number, 0, first[number]))
    }

    /// Offers cycles to the channels in this order, each after its first turn.
    pub fn offered(&self, order: impl IntoIterator<Item = usize>, mut cycles: u32) -> Counts {
        let mut counts = self.first();
        for number in order {
            let from = counts[number];
            counts[number] += self.more(number, from, cycles);
            cycles -= self.cycles(number, from, counts[number]);
        }
        counts
    }

    /// "In number order each runs within its guarantee, then what the four left of their
    /// guarantees is one sum, offered in number order to those not done."
    pub fn counts(&self) -> Counts {
        self.offered(0..4, self.left().iter().sum())
    }

    /// Whether a channel that has run so many operations is done.
    pub fn is_done(&self, number: usize, count: usize) -> bool {
        count == self.lists[number].figures.len()
    }

    /// What the library answers on these banks, which are left with other registers; the
    /// rest of the answer, and the banks' marks, must be those of so many operations.
    pub fn by_library(&self, banks: &mut [Bank; 4]) -> Counts {
        for bank in banks.iter_mut() {
            (bank.waiting, bank.status) = (0, 0);
        }
        let lists = self.lists.map(|list| &list.operations[..]);
        let cycles = self.guarantees.iter().sum();
        let answer = tb_frame(banks.each_mut(), lists, &self.guarantees, cycles);
        assert_eq!(answer.refusal, 0, "{self:?}");
        let counts = answer.channels.map(|channel| channel.ran as usize);
        for (number, channel) in answer.channels.iter().enumerate() {
            let (bank, count) = (&banks[number], counts[number]);
            let done = self.is_done(number, count);
            assert_eq!(channel.cycles, self.cycles(number, 0, count), "{self:?}");
            assert_eq!(channel.end, if done { 1 } else { 2 }, "{self:?}");
            let marks = if done { (0, 0b001) } else { (1, 0b010) };
            assert_eq!((bank.waiting, bank.status), marks, "{self:?}");
            let left = &lists[number][4 * count..];
            assert!(done || bank.remainder() == Some(left), "{self:?}");
        }
        counts
    }
}
