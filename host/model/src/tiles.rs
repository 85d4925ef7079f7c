//! Tiles (request 05 of paper 02).

use crate::bits::{bits_of, word_of};
use std::array;

/// The bits of a tile: its rows, each by columns.
type Rows = [[bool; 8]; 8];

/// "Row r, column c goes to row c, column r in transpose"
///
/// ```
/// // Row 1, column 2.
/// assert_eq!(model::tiles::transpose(1 << 10), 1 << 17);
/// ```
pub fn transpose(tile: u64) -> u64 {
    moved(tile, |r, c| (c, r))
}

/// "to row c, column 7 - r in the left turn"
///
/// ```
/// // Row 1, column 2 goes to row 2, column 6.
/// assert_eq!(model::tiles::turn_left(1 << 10), 1 << 22);
/// ```
pub fn turn_left(tile: u64) -> u64 {
    moved(tile, |r, c| (c, 7 - r))
}

/// "to row 7 - c, column r in the right turn"
///
/// ```
/// // Row 1, column 2 goes to row 5, column 1.
/// assert_eq!(model::tiles::turn_right(1 << 10), 1 << 41);
/// ```
pub fn turn_right(tile: u64) -> u64 {
    moved(tile, |r, c| (7 - c, r))
}

/// "The mirrors replace c by 7 - c"
///
/// ```
/// // Row 1, column 2 goes to row 1, column 5.
/// assert_eq!(model::tiles::mirror_columns(1 << 10), 1 << 13);
/// ```
pub fn mirror_columns(tile: u64) -> u64 {
    moved(tile, |r, c| (r, 7 - c))
}

/// "or r by 7 - r"
///
/// ```
/// // Row 1, column 2 goes to row 6, column 2.
/// assert_eq!(model::tiles::mirror_rows(1 << 10), 1 << 50);
/// ```
pub fn mirror_rows(tile: u64) -> u64 {
    moved(tile, |r, c| (7 - r, c))
}

/// "Each tile movement must put every dot where its row and column rule says"
fn moved(tile: u64, rule: fn(usize, usize) -> (usize, usize)) -> u64 {
    let mut moved = Rows::default();
    for (r, row) in rows_of(tile).into_iter().enumerate() {
        for (c, bit) in row.into_iter().enumerate() {
            let (row, column) = rule(r, c);
            moved[row][column] = bit;
        }
    }
    word_of(moved.as_flattened())
}

/// "A tile is one word; row r is byte r counted from the right", "and column c is
/// line c of that byte"
fn rows_of(tile: u64) -> Rows {
    let bits = bits_of(64, tile);
    array::from_fn(|r| array::from_fn(|c| bits[8 * r + c]))
}
