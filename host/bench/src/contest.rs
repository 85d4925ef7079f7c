//! The library's call beside its peers: checks, times and prints them.

use crate::timing::{inputs, medians, Calls};
use conformance::samples::Random;
use std::fmt::Debug;
use std::iter::zip;
use std::rc::Rc;

/// The library's call and its peers, on the same random inputs.
pub struct Contest<I, O> {
    inputs: Rc<[I]>,
    outputs: Vec<O>,
    parts: usize,
    contenders: Vec<Contender>,
}

struct Contender {
    name: &'static str,
    calls: Calls,
    /// How many times as long the library may take, if that is laid down.
    limit: Option<f64>,
}

impl<I: 'static, O: Debug + PartialEq> Contest<I, O> {
    /// The library's call, alone so far.
    pub fn of(make: impl Fn(&mut Random) -> I, library: impl Fn(&I) -> O + 'static) -> Self {
        Contest::of_parts(1, make, library)
    }

    /// The same, where an input has so many parts and the time of one is
    /// wanted.
    pub fn of_parts(
        parts: usize,
        make: impl Fn(&mut Random) -> I,
        library: impl Fn(&I) -> O + 'static,
    ) -> Self {
        let inputs = inputs(parts, make);
        let outputs = inputs.iter().map(&library).collect();
        let contest = Contest {
            inputs,
            outputs,
            parts,
            contenders: Vec::new(),
        };
        contest.beside("library", library)
    }

    /// The same, where the time of the whole input is wanted.
    pub fn whole(mut self) -> Self {
        self.parts = 1;
        self
    }

    /// Beside the others a peer, which must answer as the library does.
    pub fn peer(self, name: &'static str, call: impl Fn(&I) -> O + 'static) -> Self {
        self.assert_same(name, &call);
        self.beside(name, move |input| apart(&call, input))
    }

    /// A peer behind a pointer, as the library is here: where both calls are of one
    /// type, one timing loop serves both. For calls of a few cycles, whose times hang
    /// on where the loop lies.
    pub fn alike(self, name: &'static str, call: impl Fn(&I) -> O + 'static) -> Self {
        self.assert_same(name, &call);
        self.beside(name, call)
    }

    fn assert_same(&self, name: &str, call: &impl Fn(&I) -> O) {
        for (input, output) in zip(&*self.inputs, &self.outputs) {
            assert_eq!(call(input), *output, "{name} answers as the library does");
        }
    }

    /// The same, where there is such a peer.
    pub fn peer_if_any<F>(self, name: &'static str, call: Option<F>) -> Self
    where
        F: Fn(&I) -> O + 'static,
    {
        match call {
            Some(call) => self.peer(name, call),
            None => self,
        }
    }

    /// Beside the others a call of the library, which answers what it may.
    pub fn beside<A>(mut self, name: &'static str, call: impl Fn(&I) -> A + 'static) -> Self {
        let calls = Calls::new(&self.inputs, call);
        self.contenders.push(Contender {
            name,
            calls,
            limit: None,
        });
        self
    }

    /// Lays down how many times as long as the last one beside it the library
    /// may take.
    pub fn within(mut self, limit: f64) -> Self {
        if let Some(contender) = self.contenders.last_mut() {
            contender.limit = Some(limit);
        }
        self
    }

    /// Prints for each its median, how many times as long the library takes,
    /// and whether that is within the limit.
    pub fn print(self, call: &str) {
        let medians = medians(self.contenders.iter().map(|contender| &contender.calls));
        for (Contender { name, limit, .. }, median) in zip(&self.contenders, &medians) {
            let time = median / self.parts as f64;
            let ratio = medians[0] / median;
            let aim = limit.map_or(String::new(), |limit| {
                let met = if ratio <= limit { "met" } else { "missed" };
                format!("{limit:>8.2} {met}")
            });
            let line = format!("{call:<26} {name:<34} {time:>8.2} {ratio:>13.2} {aim}");
            println!("{}", line.trim_end());
        }
    }
}

/// Makes a peer's call apart from the timing loop. The library's calls, across
/// the C boundary, cannot be inlined into it, so peers must not be either.
#[inline(never)]
pub fn apart<I, O>(call: &impl Fn(&I) -> O, input: &I) -> O {
    call(input)
}

/// Prints what stands over the lines.
pub fn print_heading() {
    let [call, name, time, ratio, limit] = ["call", "by", "ns/call", "library/this", "at most"];
    println!("{call:<26} {name:<34} {time:>8} {ratio:>13} {limit:>8}");
}
