//! Tiles of 8 by 8 bits.
//!
//! Row r is byte r, row 0 on top; column c is bit c of that byte, column 7 at the
//! left.

use crate::ffi;

/// Transposes a tile: row r, column c goes to row c, column r.
///
/// Row r is byte r of the word, row 0 on top; column c is bit c of that byte, column
/// 7 at the left. So the diagonal that stays runs from the top right to the bottom
/// left. Twice gives the tile back. Nothing is refused.
///
/// ```
/// use tigbayon::tile_transpose;
///
/// // Row 0 becomes column 0, at the right.
/// assert_eq!(tile_transpose(0xFF), 0x0101_0101_0101_0101);
/// assert_eq!(tile_transpose(0x0101_0101_0101_0101), 0xFF);
/// // Row 0, column 7, at the top left, and row 7, column 0.
/// assert_eq!(tile_transpose(1 << 7), 1 << 56);
/// ```
pub fn tile_transpose(tile: u64) -> u64 {
    ffi::tb_tile_transpose(tile)
}

/// Turns a tile a quarter to the left, counter-clockwise: row r, column c goes to
/// row c, column 7 - r.
///
/// Rows and columns are those of [`tile_transpose`]. Four turns give the tile back,
/// [`tile_turn_right`] undoes one. Nothing is refused.
///
/// ```
/// use tigbayon::tile_turn_left;
///
/// // Row 0, on top, becomes column 7, at the left.
/// let left = tile_turn_left(0xFF);
/// assert_eq!(left, 0x8080_8080_8080_8080);
/// let bottom = tile_turn_left(left);
/// assert_eq!(bottom, 0xFF00_0000_0000_0000);
/// assert_eq!(tile_turn_left(tile_turn_left(bottom)), 0xFF);
/// ```
pub fn tile_turn_left(tile: u64) -> u64 {
    ffi::tb_tile_turn_left(tile)
}

/// Turns a tile a quarter to the right, clockwise: row r, column c goes to row
/// 7 - c, column r.
///
/// Rows and columns are those of [`tile_transpose`]. [`tile_turn_left`] undoes it.
/// Nothing is refused.
///
/// ```
/// use tigbayon::{tile_turn_left, tile_turn_right};
///
/// // Row 0, on top, becomes column 0, at the right.
/// assert_eq!(tile_turn_right(0xFF), 0x0101_0101_0101_0101);
/// assert_eq!(tile_turn_left(0x0101_0101_0101_0101), 0xFF);
/// ```
pub fn tile_turn_right(tile: u64) -> u64 {
    ffi::tb_tile_turn_right(tile)
}

/// Mirrors the columns of a tile, left and right: row r, column c goes to row r,
/// column 7 - c.
///
/// Rows and columns are those of [`tile_transpose`]. Twice gives the tile back.
/// Nothing is refused.
///
/// ```
/// use tigbayon::tile_mirror_columns;
///
/// assert_eq!(tile_mirror_columns(0x0304), 0xC020);
/// ```
pub fn tile_mirror_columns(tile: u64) -> u64 {
    ffi::tb_tile_mirror_columns(tile)
}

/// Mirrors the rows of a tile, top and bottom: row r, column c goes to row 7 - r,
/// column c.
///
/// Rows and columns are those of [`tile_transpose`]. Twice gives the tile back.
/// Nothing is refused.
///
/// ```
/// use tigbayon::tile_mirror_rows;
///
/// assert_eq!(tile_mirror_rows(0x0304), 0x0403_0000_0000_0000);
/// ```
pub fn tile_mirror_rows(tile: u64) -> u64 {
    ffi::tb_tile_mirror_rows(tile)
}
