//! Tiles beside their model.

/// A call of a tile, which refuses nothing: as the archive exports it, as the
/// wrapper offers it, and as the model defines it.
#[derive(Clone, Copy)]
pub struct Movement {
    /// The call's name.
    pub name: &'static str,
    raw: extern "C" fn(u64) -> u64,
    wrapped: fn(u64) -> u64,
    model: fn(u64) -> u64,
}

/// Transpose.
pub const TRANSPOSE: Movement = Movement {
    name: "tile_transpose",
    raw: tigbayon::tb_tile_transpose,
    wrapped: tigbayon::tile_transpose,
    model: model::tiles::transpose,
};

/// A quarter turn to the left.
pub const TURN_LEFT: Movement = Movement {
    name: "tile_turn_left",
    raw: tigbayon::tb_tile_turn_left,
    wrapped: tigbayon::tile_turn_left,
    model: model::tiles::turn_left,
};

/// A quarter turn to the right.
pub const TURN_RIGHT: Movement = Movement {
    name: "tile_turn_right",
    raw: tigbayon::tb_tile_turn_right,
    wrapped: tigbayon::tile_turn_right,
    model: model::tiles::turn_right,
};

/// The columns mirrored.
pub const MIRROR_COLUMNS: Movement = Movement {
    name: "tile_mirror_columns",
    raw: tigbayon::tb_tile_mirror_columns,
    wrapped: tigbayon::tile_mirror_columns,
    model: model::tiles::mirror_columns,
};

/// The rows mirrored.
pub const MIRROR_ROWS: Movement = Movement {
    name: "tile_mirror_rows",
    raw: tigbayon::tb_tile_mirror_rows,
    wrapped: tigbayon::tile_mirror_rows,
    model: model::tiles::mirror_rows,
};

/// All of them.
pub const MOVEMENTS: [Movement; 5] = [
    TRANSPOSE,
    TURN_LEFT,
    TURN_RIGHT,
    MIRROR_COLUMNS,
    MIRROR_ROWS,
];

impl Movement {
    /// Makes the call all three ways, panics unless they agree, and hands the
    /// result back.
    pub fn check(&self, tile: u64) -> u64 {
        let library = (self.raw)(tile);
        let model = (self.model)(tile);
        let wrapped = (self.wrapped)(tile);
        for (by, answer) in [("library", library), ("wrapper", wrapped)] {
            assert!(
                answer == model,
                "{} {tile:x}: {by} {answer:x}, model {model:x}",
                self.name
            );
        }
        model
    }
}

/// The tile of a picture, of which each line is a row, from the top: `#` is one, `.`
/// is zero.
///
/// ```
/// let picture = ".......#\n#.......";
/// assert_eq!(conformance::tiles::drawn(picture), 0x8001);
/// ```
pub fn drawn(picture: &str) -> u64 {
    let row = |line: &str| {
        assert_eq!(line.len(), 8, "{picture}");
        line.chars().fold(0, |row, dot| match dot {
            '.' => row << 1,
            '#' => row << 1 | 1,
            _ => panic!("{picture}"),
        })
    };
    let rows = picture.lines().map(row).enumerate();
    rows.fold(0, |tile, (r, row)| tile | row << (8 * r))
}
