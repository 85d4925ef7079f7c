//! Routing at width 64: through both networks on random permutations, through
//! one network on permutations that it realises.

use crate::contest::Contest;
use crate::networks::{log_distance, random_controls, Network, STAGES};
use crate::twin;
use crate::WIDTH;
use conformance::permutations::realised;
use conformance::samples::{random_permutation, Random};
use std::mem::swap;
use tigbayon::{tb_butterfly, tb_inverse, tb_route, tb_route_butterfly, tb_route_inverse};
use tigbayon::{TbControls1, TbControls2};

const PLACES: usize = WIDTH as usize;

/// Routing through both networks beside the same loops.
pub fn route(name: &str) {
    Contest::of(
        |random| random_permutation(random, WIDTH),
        |permutation| tb_route(WIDTH, permutation),
    )
    .peer("the same loops, unproved", |permutation| {
        twin::route(WIDTH, permutation)
    })
    .within(1.3)
    .peer("the same, marks kept in words", |permutation| {
        route_both(permutation)
    })
    .print(name);
}

/// Routing through the butterfly beside one pass a stage.
pub fn route_butterfly(name: &str) {
    one_network::<false>(name, tb_butterfly, tb_route_butterfly);
}

/// Routing through the inverse beside one pass a stage.
pub fn route_inverse(name: &str) {
    one_network::<true>(name, tb_inverse, tb_route_inverse);
}

fn one_network<const RISING: bool>(
    name: &str,
    network: Network,
    library: impl Fn(u32, &[u8]) -> TbControls1 + 'static,
) {
    Contest::of(
        |random| permutation_by(random, network, WIDTH),
        move |permutation| library(WIDTH, permutation),
    )
    .peer("one pass a stage", |permutation| {
        route_one::<RISING>(permutation)
    })
    .print(name);
}

/// A permutation that the network realises.
pub fn permutation_by(random: &mut Random, network: Network, width: u32) -> Vec<u8> {
    let controls = random_controls(random, width);
    realised(width, |word| network(width, &controls, word).word)
}

/// A copy of a permutation, or refusal 4 or 5.
fn accepted(permutation: &[u8]) -> Result<[u8; PLACES], u8> {
    let permutation: [u8; PLACES] = permutation.try_into().map_err(|_| 4)?;
    let named = |named, bit| Some(named | 1_u64.checked_shl(u32::from(bit))?);
    let named = permutation.into_iter().try_fold(0, named);
    if named == Some(u64::MAX) {
        Ok(permutation)
    } else {
        Err(5)
    }
}

fn route_both(permutation: &[u8]) -> TbControls2 {
    let mut routed = TbControls2 {
        refusal: 0,
        butterfly: [0; STAGES],
        inverse: [0; STAGES],
    };
    match accepted(permutation) {
        Ok(mut permutation) => route_block(&mut permutation, 0, 0, &mut routed),
        Err(refusal) => routed.refusal = refusal,
    }
    routed
}

/// Sets the outer stages of a block, whose switches begin at this one, and
/// goes on with its halves, made in place.
fn route_block(permutation: &mut [u8], stage: usize, switch: usize, routed: &mut TbControls2) {
    let distance = permutation.len() / 2;
    if distance == 0 {
        return;
    }
    let (first, last) = outer_stages(permutation);
    routed.butterfly[stage] |= first << switch;
    routed.inverse[STAGES - 1 - stage] |= last << switch;
    let (lower, upper) = permutation.split_at_mut(distance);
    for (switch, (low, high)) in lower.iter_mut().zip(&mut *upper).enumerate() {
        if last >> switch & 1 == 0 {
            swap(low, high);
        }
        *low &= distance as u8 - 1;
        *high &= distance as u8 - 1;
    }
    route_block(lower, stage + 1, switch, routed);
    route_block(upper, stage + 1, switch + distance / 2, routed);
}

/// The first valid stage of a block, and the last one, which follows from it.
fn outer_stages(permutation: &[u8]) -> (u32, u32) {
    let distance = permutation.len() / 2;
    let mut place_of = [0; PLACES];
    for (place, &bit) in (0_u8..).zip(permutation) {
        place_of[usize::from(bit)] = place;
    }
    // A switch's number, from a bit or place of it.
    let switch = |number: usize| number & (distance - 1);
    let (mut set, mut first, mut last) = (0_u32, 0, 0);
    for start in 0..distance {
        let mut bit = start;
        while set >> switch(bit) & 1 == 0 {
            // This bit goes to the lower half, the one beside it to the upper.
            set |= 1 << switch(bit);
            first |= u32::from(bit < distance) << switch(bit);
            let place = usize::from(place_of[bit ^ distance]);
            last |= u32::from(place >= distance) << switch(place);
            bit = permutation[place ^ distance].into();
        }
    }
    (first, last)
}

fn route_one<const RISING: bool>(permutation: &[u8]) -> TbControls1 {
    let stages = accepted(permutation).and_then(only_stages::<RISING>);
    TbControls1 {
        refusal: stages.err().unwrap_or(0),
        stages: stages.unwrap_or_default(),
    }
}

/// Sends every bit along its only way, through stages of rising distances (the
/// inverse) or falling ones; or refusal 6.
fn only_stages<const RISING: bool>(mut at: [u8; PLACES]) -> Result<[u32; STAGES], u8> {
    let mut stages = [0; STAGES];
    for (i, stage) in stages.iter_mut().enumerate() {
        let distance = 1 << log_distance::<RISING>(i);
        let (mut passing, mut swapping) = (0_u32, 0_u32);
        for (place, at) in (0..).zip(&mut at) {
            let switch = *at / (2 * distance) * distance + *at % distance;
            let moved = (*at ^ place) & distance;
            if moved == 0 {
                passing |= 1 << switch;
            } else {
                swapping |= 1 << switch;
            }
            *at ^= moved;
        }
        if passing & swapping != 0 {
            return Err(6);
        }
        *stage = passing;
    }
    Ok(stages)
}
