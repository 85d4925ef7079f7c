//! Frames: as a file asks for them, what becomes of their cycles by request 11 of paper
//! 02, and what is printed.

use super::{run_on, Outcome};
use conformance::samples::Random;
use std::array::from_fn;

/// An operation of 1, 2 and 3 cycles.
const OPERATIONS: [&str; 3] = ["1,1,2,0", "8,0,0,3", "6,4,5,6"];

/// A frame with the guarantees of its channels and their lists: the cycles of each
/// operation, a digit each.
pub struct Asked {
    /// The cycles.
    pub cycles: u32,
    /// The guarantees.
    pub guarantees: [u32; 4],
    /// The lists.
    pub lists: [String; 4],
}

/// What a channel has of a frame.
#[derive(Debug, Default, PartialEq, Eq)]
pub struct Share {
    /// Cycles that it used of its guarantee.
    pub used: u32,
    /// Cycles that it left of it.
    pub left: u32,
    /// Cycles that it used of the rest.
    pub rest: u32,
    /// Operations that it ran.
    pub ran: usize,
}

impl Asked {
    /// One of these, whose cycles are as many as the guarantees.
    pub fn of(guarantees: [u32; 4], lists: [&str; 4]) -> Self {
        Asked {
            cycles: guarantees.iter().sum(),
            guarantees,
            lists: lists.map(String::from),
        }
    }

    /// A random one, of lists and guarantees up to about this many operations and cycles.
    pub fn any(random: &mut Random, most: u32) -> Self {
        let guarantees = from_fn(|_| random.below(most + 1));
        let lists = from_fn(|_| {
            let count = random.below(most + 1);
            let digits = (0..count).map(|_| ['1', '2', '3'][random.below(3) as usize]);
            digits.collect()
        });
        Asked {
            cycles: guarantees.iter().sum::<u32>() + random.below(3),
            guarantees,
            lists,
        }
    }

    /// The file that asks for it.
    pub fn file(&self) -> String {
        let mut file = format!("frame cycles {}\n", self.cycles);
        for channel in 0..4 {
            let guarantee = self.guarantees[channel];
            file += &format!("channel {channel} guarantee {guarantee}\n");
            file += &format!("run {}\n", operations(&self.lists[channel]));
        }
        file
    }

    /// What the channels have of it.
    pub fn shares(&self) -> [Share; 4] {
        let mut shares: [Share; 4] = from_fn(|channel| {
            let guarantee = self.guarantees[channel];
            let (ran, used) = turn(&self.lists[channel], guarantee);
            Share {
                used,
                left: guarantee - used,
                rest: 0,
                ran,
            }
        });
        let mut sum = shares.iter().map(|share| share.left).sum();
        for (share, list) in shares.iter_mut().zip(&self.lists) {
            let (ran, used) = turn(&list[share.ran..], sum);
            share.ran += ran;
            share.rest = used;
            sum -= used;
        }
        shares
    }

    /// Its answer for a channel, in words.
    pub fn answer(&self, channel: usize) -> String {
        let share = &self.shares()[channel];
        let done = share.ran == self.lists[channel].len();
        let end = if done { "done" } else { "spent" };
        let cycles = share.used + share.rest;
        format!("{end}, {} run, {cycles} cycles", share.ran)
    }
}

/// How many operations fit, from the first on, and their cycles.
fn turn(list: &str, budget: u32) -> (usize, u32) {
    let (mut ran, mut used) = (0, 0);
    for digit in list.chars() {
        let cycles = digit.to_digit(10).unwrap();
        if used + cycles > budget {
            break;
        }
        (ran, used) = (ran + 1, used + cycles);
    }
    (ran, used)
}

/// Operations of these cycles, a digit each.
pub fn operations(digits: &str) -> String {
    let costs = digits.chars().map(|digit| digit.to_digit(10).unwrap());
    let operations = costs.map(|cost| OPERATIONS[cost as usize - 1]);
    Vec::from_iter(operations).join(",")
}

/// Runs `frame` on a file of this text, with these options.
pub fn frame(file: &str, options: &[&str]) -> Outcome {
    run_on(&[&["frame", "-"], options].concat(), file)
}

/// What is printed where that is carried out.
pub fn frame_prints(file: &str, options: &[&str]) -> String {
    let outcome = frame(file, options);
    assert_eq!((outcome.status, outcome.error.as_str()), (0, ""), "{file}");
    outcome.output
}

/// A frame as it is printed.
#[derive(Debug, PartialEq, Eq)]
pub struct Printed {
    /// What stands over the bars.
    pub heading: String,
    /// The bar of each channel, and the words beside it.
    pub bars: Vec<(String, String)>,
    /// What stands below the bars.
    pub legend: String,
    /// The lines of each channel.
    pub channels: Vec<Vec<String>>,
}

/// Reads frames as they are printed.
pub fn read_frames(printed: &str) -> Vec<Printed> {
    let mut frames: Vec<Printed> = Vec::new();
    for block in printed.split("\n\n") {
        let lines: Vec<String> = block.lines().map(String::from).collect();
        if lines[0].starts_with("frame ") {
            assert_eq!(lines.len(), 6, "{block}");
            frames.push(Printed {
                heading: lines[0].clone(),
                bars: (0..).zip(&lines[1..5]).map(read_bar).collect(),
                legend: lines[5].clone(),
                channels: Vec::new(),
            });
        } else {
            frames.last_mut().unwrap().channels.push(lines);
        }
    }
    frames
}

/// A bar and the words beside it; of all frames these begin in one column.
fn read_bar((channel, line): (usize, &String)) -> (String, String) {
    let line = line.strip_prefix(&format!("channel {channel}  ")).unwrap();
    let end = line.find(|c: char| c.is_ascii_digit()).unwrap();
    let (bar, words) = line.split_at(end);
    assert!(bar.ends_with("  "), "{line}");
    (bar.trim_end().to_string(), words.to_string())
}

/// The frames that a file leads to, with these options.
pub fn frames(file: &str, options: &[&str]) -> Vec<Printed> {
    read_frames(&frame_prints(file, options))
}
