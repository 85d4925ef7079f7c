//! What the tests share: each call beside its model, and inputs for it.

pub mod arbitrary;
pub mod call;
pub mod controls;
pub mod frame;
pub mod fuzz;
pub mod guards;
mod lists;
pub mod packing;
#[cfg(target_os = "linux")]
pub mod pages;
pub mod permutations;
pub mod pixels;
pub mod planes;
pub mod prepared;
pub mod programs;
pub mod refusals;
pub mod samples;
pub mod schedules;
pub mod stack;
pub mod tiles;
pub mod unit;

/// The accepted widths.
pub const WIDTHS: [u32; 4] = [8, 16, 32, 64];

/// The accepted sizes of subwords.
pub const SIZES: [u32; 6] = [1, 2, 4, 8, 16, 32];

/// What may be done to two bits that meet: what only moves bits may come before it or
/// after.
pub const BITWISE: [fn(u64, u64) -> u64; 3] = [
    |one, other| one & other,
    |one, other| one | other,
    |one, other| one ^ other,
];

/// A word with ones at bits 0 to `count` - 1; `count` is at most 64.
pub fn low_ones(count: u32) -> u64 {
    u64::MAX.checked_shr(64 - count).unwrap_or(0)
}
