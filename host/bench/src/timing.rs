//! Calls on random inputs, and their times: medians over many rounds.

use conformance::samples::Random;
use std::hint::black_box;
use std::iter::zip;
use std::rc::Rc;
use std::time::{Duration, Instant};

/// How many inputs, or parts of inputs, a round goes through: too many for the
/// processor to learn what comes.
const INPUTS: usize = 4096;

/// How many inputs it goes through at least, however many parts they have.
const FEWEST: usize = 16;

/// How many rounds the median is taken of, at least.
const ROUNDS: u32 = 101;

/// How long the rounds go on, at least.
const LEAST: Duration = Duration::from_millis(400);

/// Random inputs of so many parts each, the same in every run.
pub fn inputs<I>(parts: usize, make: impl Fn(&mut Random) -> I) -> Rc<[I]> {
    let mut random = Random::default();
    let count = (INPUTS / parts).max(FEWEST);
    (0..count).map(|_| make(&mut random)).collect()
}

/// A call, on inputs of its own.
pub struct Calls {
    inputs: usize,
    make: Box<dyn Fn(usize)>,
}

impl Calls {
    /// This call on these inputs.
    pub fn new<I: 'static, O>(inputs: &Rc<[I]>, call: impl Fn(&I) -> O + 'static) -> Self {
        let inputs = Rc::clone(inputs);
        Calls {
            inputs: inputs.len(),
            make: Box::new(move |count| {
                for input in inputs.iter().cycle().take(count) {
                    black_box(call(black_box(input)));
                }
            }),
        }
    }

    /// Makes so many calls, one after the other, on the inputs in turn.
    pub fn make(&self, count: usize) {
        (self.make)(count);
    }

    /// The nanoseconds of one call, on the average over the inputs.
    fn nanoseconds(&self) -> f64 {
        let start = Instant::now();
        self.make(self.inputs);
        start.elapsed().as_nanos() as f64 / self.inputs as f64
    }
}

/// For each of these calls the median nanoseconds of one; they are timed in
/// turn, round by round.
pub fn medians<'a>(all: impl Iterator<Item = &'a Calls> + Clone) -> Vec<f64> {
    let mut times = vec![Vec::new(); all.clone().count()];
    let start = Instant::now();
    let mut rounds = 0;
    while rounds < ROUNDS || start.elapsed() < LEAST {
        for (calls, times) in zip(all.clone(), &mut times) {
            times.push(calls.nanoseconds());
        }
        rounds += 1;
    }
    times.into_iter().map(median).collect()
}

fn median(mut times: Vec<f64>) -> f64 {
    times.sort_by(f64::total_cmp);
    times[times.len() / 2]
}
