//! Controls for a permutation ("Finder" and "One network" of paper 01).
//!
//! Sets are compared stage by stage across the whole width, but the first set
//! is made here block by block. It is the same. The stages before a stage of
//! the butterfly fix the permutation that each of its blocks must bring about,
//! and which control bits a block can have there depends on that permutation
//! alone, not on the other blocks: any valid ones, since the half permutations
//! left have controls again. So the stage can have every combination of its
//! blocks' valid bits, and as a lower block's switches come first, the first
//! combination is that of the blocks' first ones. The inverse's stages, which
//! are compared last, follow from the butterfly's.

use crate::network::{butterfly_distances, controls_of, inverse_distances, Controls};
use crate::permutation::conditions;
use crate::refusal::{lowest, Answer, NONE, NOT_REALISED, WIDTHS};
use std::iter::{once, zip};

/// Control bits of a stage, or of a block's part of it: true means pass.
pub type Stage = Vec<bool>;

/// Controls "for butterfly then inverse".
#[derive(Clone, Copy, Debug, Default, PartialEq, Eq)]
pub struct Routed {
    /// The butterfly's controls.
    pub butterfly: Controls,
    /// The inverse's controls.
    pub inverse: Controls,
}

impl Routed {
    /// Controls of these stages, the butterfly's and then the inverse's.
    pub fn of(stages: &[Stage]) -> Self {
        let (butterfly, inverse) = stages.split_at(stages.len() / 2);
        Routed {
            butterfly: controls_of(butterfly),
            inverse: controls_of(inverse),
        }
    }
}

/// "The answer is the first set of settings in the sense of demand 3."
///
/// ```
/// use model::routing::route;
///
/// // Rows 7 and 8 of paper 01.
/// let routed = route(8, &[7, 6, 5, 4, 3, 2, 1, 0]).result;
/// assert_eq!(routed.butterfly, [0xF, 0xF, 0xF, 0, 0, 0]);
/// assert_eq!(routed.inverse, [0; 6]);
/// let routed = route(8, &[0, 4, 2, 3, 1, 5, 6, 7]).result;
/// assert_eq!(routed.butterfly, [0xD, 0xF, 0xF, 0, 0, 0]);
/// assert_eq!(routed.inverse, [0xB, 0xF, 0xD, 0, 0, 0]);
/// ```
pub fn route(width: u32, permutation: &[u8]) -> Answer<Routed> {
    Answer::of(&conditions(&WIDTHS, width, permutation), || {
        Routed::of(&stages_by(&mut first_stage, &numbers(permutation)))
    })
}

/// The butterfly alone: "It gets the settings that realise it, or refusal 6
/// exactly if there are none."
///
/// ```
/// use model::refusal::Answer;
/// use model::routing::route_butterfly;
///
/// // Row 9 of paper 01.
/// let answer = route_butterfly(8, &[0, 4, 2, 3, 1, 5, 6, 7]);
/// assert_eq!(answer, Answer::refused(6));
/// // One switch of the first stage swaps.
/// let answer = route_butterfly(8, &[4, 1, 2, 3, 0, 5, 6, 7]);
/// assert_eq!(answer.result, [0xE, 0xF, 0xF, 0, 0, 0]);
/// ```
pub fn route_butterfly(width: u32, permutation: &[u8]) -> Answer<Controls> {
    one_network(width, permutation, butterfly_distances)
}

/// The inverse alone, likewise.
///
/// ```
/// use model::refusal::Answer;
/// use model::routing::route_inverse;
///
/// // Row 9 of paper 01.
/// let answer = route_inverse(8, &[0, 4, 2, 3, 1, 5, 6, 7]);
/// assert_eq!(answer, Answer::refused(6));
/// // One switch of the last stage swaps.
/// let answer = route_inverse(8, &[4, 1, 2, 3, 0, 5, 6, 7]);
/// assert_eq!(answer.result, [0xF, 0xF, 0xE, 0, 0, 0]);
/// ```
pub fn route_inverse(width: u32, permutation: &[u8]) -> Answer<Controls> {
    one_network(width, permutation, inverse_distances)
}

fn numbers(permutation: &[u8]) -> Vec<usize> {
    permutation.iter().map(|&entry| entry.into()).collect()
}

/// All stages of a block, those of the butterfly and then those of the
/// inverse, given how to choose a first stage.
///
/// "The two outer columns once set, an order falls apart into two orders of
/// half the width."
pub fn stages_by(
    first_stage: &mut dyn FnMut(&[usize]) -> Stage,
    permutation: &[usize],
) -> Vec<Stage> {
    if permutation.len() == 1 {
        return Vec::new();
    }
    let first = first_stage(permutation);
    let [lower, upper] = [0, 1].map(|half| {
        let permutation = half_permutation(permutation, &first, half);
        stages_by(first_stage, &permutation)
    });
    let last = last_stage(permutation, &first);
    let inner = zip(lower, upper).map(|(lower, upper)| [lower, upper].concat());
    once(first).chain(inner).chain(once(last)).collect()
}

/// The half, 0 or 1, that a bit enters after the first stage.
fn half_of(first: &Stage, bit: usize) -> usize {
    let distance = first.len();
    let (half, switch) = (bit / distance, bit % distance);
    if first[switch] {
        half
    } else {
        1 - half
    }
}

/// "Two lines of one switch in the first column go to different halves, and so
/// must the two lines that meet in one switch of the last column."
fn is_valid(permutation: &[usize], first: &Stage) -> bool {
    let distance = first.len();
    (0..distance).all(|switch| {
        let meeting = [switch, switch + distance].map(|place| permutation[place]);
        half_of(first, meeting[0]) != half_of(first, meeting[1])
    })
}

/// A switch of the last stage passes if the lower one of its places takes a
/// bit out of the lower half.
fn last_stage(permutation: &[usize], first: &Stage) -> Stage {
    let lower_places = &permutation[..first.len()];
    let from_lower = lower_places.iter().map(|&bit| half_of(first, bit) == 0);
    from_lower.collect()
}

/// For each switch of the last stage, the bit that this half brings to it, as
/// it is numbered in the half.
fn half_permutation(permutation: &[usize], first: &Stage, half: usize) -> Vec<usize> {
    let distance = first.len();
    let brought = (0..distance).map(|switch| {
        let mut meeting = [switch, switch + distance].map(|place| permutation[place]);
        meeting.sort_by_key(|&bit| half_of(first, bit));
        meeting[half] % distance
    });
    brought.collect()
}

/// The first valid first stage of a block: by search up to 16 places, beyond
/// that by loops.
fn first_stage(permutation: &[usize]) -> Stage {
    if permutation.len() <= 16 {
        first_stage_by_search(permutation)
    } else {
        first_stage_by_loops(permutation)
    }
}

/// The first valid one of all that the first stage can be: "pass before swap",
/// switch 0 deciding before all others.
pub fn first_stage_by_search(permutation: &[usize]) -> Stage {
    let switches = permutation.len() / 2;
    // Digit 0 is pass, and switch 0 is the leading digit.
    let stage_of = |number: usize| -> Stage {
        let digits = (0..switches).rev().map(|digit| number >> digit & 1);
        digits.map(|digit| digit == 0).collect()
    };
    let mut stages = (0..1 << switches).map(stage_of);
    let valid = stages.find(|stage| is_valid(permutation, stage));
    valid.expect("every permutation has a valid first stage")
}

/// The same by loops: one passes at its lowest switch.
pub fn first_stage_by_loops(permutation: &[usize]) -> Stage {
    valid_stage(&mut || true, permutation)
}

/// A valid first stage; for each loop, at its lowest switch, `pass` is asked
/// whether that switch passes.
///
/// "These bonds form closed loops, which go from a switch of the first column
/// to one of the last and back."
pub fn valid_stage(pass: &mut dyn FnMut() -> bool, permutation: &[usize]) -> Stage {
    let width = permutation.len();
    let beside = |number| (number + width / 2) % width;
    let mut halves = vec![None; width];
    for lowest in 0..width / 2 {
        if halves[lowest].is_some() {
            continue;
        }
        let half = if pass() { 0 } else { 1 };
        let mut bit = lowest;
        while halves[bit].is_none() {
            halves[bit] = Some(half);
            halves[beside(bit)] = Some(1 - half);
            let place = permutation.iter().position(|&b| b == beside(bit));
            bit = permutation[beside(place.expect("every bit has a place"))];
        }
    }
    let lower_bits = halves[..width / 2].iter();
    lower_bits.map(|&half| half == Some(0)).collect()
}

/// Refuses the call, or answers the controls of one network.
fn one_network(
    width: u32,
    permutation: &[u8],
    distances: impl Fn(usize) -> Vec<usize>,
) -> Answer<Controls> {
    let mut conditions = conditions(&WIDTHS, width, permutation).to_vec();
    let mut stages = None;
    if lowest(&conditions) == NONE {
        stages = forced_stages(&distances(width as usize), numbers(permutation));
        conditions.push((NOT_REALISED, stages.is_none()));
    }
    Answer::of(&conditions, || controls_of(&stages.unwrap_or_default()))
}

/// Sends every bit along its only way: no stage but that of distance d moves a
/// bit by d, so there it must come to the side, lower or upper, of its place.
/// None if two bits would set one switch differently.
fn forced_stages(distances: &[usize], mut at: Vec<usize>) -> Option<Vec<Stage>> {
    let mut stages = Vec::new();
    for &d in distances {
        let mut stage = vec![None; at.len() / 2];
        // Where the bit for this place stands before the stage, and after it.
        for (place, at) in at.iter_mut().enumerate() {
            let (j, upper, t) = (*at / (2 * d), *at / d % 2, *at % d);
            let wanted = place / d % 2;
            let pass = upper == wanted;
            if *stage[j * d + t].get_or_insert(pass) != pass {
                return None;
            }
            *at = 2 * j * d + wanted * d + t;
        }
        stages.push(stage.into_iter().map(|pass| pass == Some(true)).collect());
    }
    Some(stages)
}
