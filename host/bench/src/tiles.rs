//! Tiles of 8 by 8 bits, on random ones.

use crate::contest::Contest;
use conformance::samples::Random;
use tigbayon::{
    tb_tile_mirror_columns, tb_tile_mirror_rows, tb_tile_transpose, tb_tile_turn_left,
    tb_tile_turn_right,
};

/// A call of a tile, the library's or a peer's.
pub type OfTile = extern "C" fn(u64) -> u64;

/// Transpose beside its peers.
pub fn transpose(name: &str) {
    Contest::of(Random::word, through(tb_tile_transpose))
        .alike("Hacker's Delight transpose8", through(by_masks))
        .within(1.0)
        .alike("delta swaps", through(transpose_by_swaps))
        .alike("bit loop", through(transpose_by_loop))
        .print(name);
}

/// The turn to the left beside its peers.
pub fn turn_left(name: &str) {
    Contest::of(Random::word, through(tb_tile_turn_left))
        .alike("bytes swapped, delta swaps", through(left_by_swaps))
        .alike("bytes swapped, transpose8", through(left_by_masks))
        .print(name);
}

/// The turn to the right beside its peers.
pub fn turn_right(name: &str) {
    Contest::of(Random::word, through(tb_tile_turn_right))
        .alike("delta swaps, bytes swapped", through(right_by_swaps))
        .alike("transpose8, bytes swapped", through(right_by_masks))
        .print(name);
}

/// The columns mirrored beside their peers.
pub fn mirror_columns(name: &str) {
    Contest::of(Random::word, through(tb_tile_mirror_columns))
        .alike("bits reversed, bytes swapped", through(columns_by_reversal))
        .alike("three exchanges", through(columns_by_exchanges))
        .print(name);
}

/// The rows mirrored beside the one instruction.
pub fn mirror_rows(name: &str) {
    Contest::of(Random::word, through(tb_tile_mirror_rows))
        .alike("bytes swapped", through(rows_by_swap))
        .print(name);
}

/// The call through its pointer: of one type, whichever it is.
fn through(call: OfTile) -> impl Fn(&u64) -> u64 {
    move |&tile| call(tile)
}

/// Hacker's Delight, Section 7-3: bits, then pairs of them, then fours change places
/// across the diagonal, by masks of those that stay, go up and go down.
extern "C" fn by_masks(tile: u64) -> u64 {
    let tile = tile & 0xAA55_AA55_AA55_AA55
        | (tile & 0x00AA_00AA_00AA_00AA) << 7
        | tile >> 7 & 0x00AA_00AA_00AA_00AA;
    let tile = tile & 0xCCCC_3333_CCCC_3333
        | (tile & 0x0000_CCCC_0000_CCCC) << 14
        | tile >> 14 & 0x0000_CCCC_0000_CCCC;
    tile & 0xF0F0_F0F0_0F0F_0F0F
        | (tile & 0x0000_0000_F0F0_F0F0) << 28
        | tile >> 28 & 0x0000_0000_F0F0_F0F0
}

/// The same by three rounds of delta swaps.
pub fn by_swaps(tile: u64) -> u64 {
    let rounds = [
        (7, 0x00AA_00AA_00AA_00AA),
        (14, 0x0000_CCCC_0000_CCCC),
        (28, 0x0000_0000_F0F0_F0F0),
    ];
    rounds.iter().fold(tile, |tile, (distance, marked)| {
        let differ = (tile ^ tile >> distance) & marked;
        tile ^ differ ^ differ << distance
    })
}

extern "C" fn transpose_by_swaps(tile: u64) -> u64 {
    by_swaps(tile)
}

extern "C" fn transpose_by_loop(tile: u64) -> u64 {
    let mut transposed = 0;
    for r in 0..8 {
        for c in 0..8 {
            transposed |= (tile >> (8 * r + c) & 1) << (8 * c + r);
        }
    }
    transposed
}

/// Rows mirrored, then transposed.
extern "C" fn left_by_masks(tile: u64) -> u64 {
    by_masks(tile.swap_bytes())
}

extern "C" fn left_by_swaps(tile: u64) -> u64 {
    by_swaps(tile.swap_bytes())
}

/// Transposed, then rows mirrored.
extern "C" fn right_by_masks(tile: u64) -> u64 {
    by_masks(tile).swap_bytes()
}

extern "C" fn right_by_swaps(tile: u64) -> u64 {
    by_swaps(tile).swap_bytes()
}

extern "C" fn columns_by_reversal(tile: u64) -> u64 {
    tile.reverse_bits().swap_bytes()
}

extern "C" fn rows_by_swap(tile: u64) -> u64 {
    tile.swap_bytes()
}

/// Fours, then pairs, then bits of each byte change places.
extern "C" fn columns_by_exchanges(tile: u64) -> u64 {
    let tile = tile >> 4 & 0x0F0F_0F0F_0F0F_0F0F | (tile & 0x0F0F_0F0F_0F0F_0F0F) << 4;
    let tile = tile >> 2 & 0x3333_3333_3333_3333 | (tile & 0x3333_3333_3333_3333) << 2;
    tile >> 1 & 0x5555_5555_5555_5555 | (tile & 0x5555_5555_5555_5555) << 1
}

#[cfg(test)]
mod tests {
    use super::*;
    use conformance::samples::any_word;
    use conformance::tiles::{Movement, MIRROR_COLUMNS, MIRROR_ROWS};
    use conformance::tiles::{TRANSPOSE, TURN_LEFT, TURN_RIGHT};

    type Peers = &'static [OfTile];

    const PEERS: [(Movement, Peers); 5] = [
        (
            TRANSPOSE,
            &[by_masks, transpose_by_swaps, transpose_by_loop],
        ),
        (TURN_LEFT, &[left_by_masks, left_by_swaps]),
        (TURN_RIGHT, &[right_by_masks, right_by_swaps]),
        (MIRROR_COLUMNS, &[columns_by_reversal, columns_by_exchanges]),
        (MIRROR_ROWS, &[rows_by_swap]),
    ];

    /// The answer of `check` is the model's.
    #[test]
    fn every_peer_answers_as_the_model_does() {
        let mut random = Random::default();
        for _ in 0..2_000 {
            let tile = any_word(&mut random, 64);
            for (movement, peers) in PEERS {
                for peer in peers {
                    assert_eq!(peer(tile), movement.check(tile), "{}", movement.name);
                }
            }
        }
    }
}
