//! Request 05 of paper 02: "Each tile movement must put every dot where its row and
//! column rule says, and four left turns must restore the tile." Library, wrapper and
//! model agree, and answer what follows from the rules without either of them.

use conformance::call::{BUTTERFLY, EXCHANGE, INVERSE, ROUTE};
use conformance::permutations::realised;
use conformance::planes::TO_PLANES;
use conformance::samples::{any_word, Random};
use conformance::tiles::{drawn, Movement, MOVEMENTS};
use conformance::tiles::{MIRROR_COLUMNS, MIRROR_ROWS, TRANSPOSE, TURN_LEFT, TURN_RIGHT};
use conformance::BITWISE;

/// Where row r, column c goes.
type Rule = fn(u32, u32) -> (u32, u32);

/// The rules, in the words of the request.
const RULES: [(Movement, Rule); 5] = [
    (TRANSPOSE, |r, c| (c, r)),
    (TURN_LEFT, |r, c| (c, 7 - r)),
    (TURN_RIGHT, |r, c| (7 - c, r)),
    (MIRROR_COLUMNS, |r, c| (r, 7 - c)),
    (MIRROR_ROWS, |r, c| (7 - r, c)),
];

/// A tile with this bit alone.
fn bit((r, c): (u32, u32)) -> u64 {
    1 << (8 * r + c)
}

/// Each row number with each column number.
fn places() -> impl Iterator<Item = (u32, u32)> {
    (0..8).flat_map(|r| (0..8).map(move |c| (r, c)))
}

/// A tile with this row alone.
fn row(r: u32) -> u64 {
    (0..8).map(|c| bit((r, c))).sum()
}

/// A tile with this column alone.
fn column(c: u32) -> u64 {
    (0..8).map(|r| bit((r, c))).sum()
}

/// Checks a law on tiles of every shape.
fn holds(law: impl Fn(u64)) {
    let mut random = Random::default();
    for _ in 0..20_000 {
        law(random.word());
        law(any_word(&mut random, 64));
    }
}

#[test]
fn each_bit_alone() {
    for (movement, rule) in RULES {
        for (r, c) in places() {
            let moved = movement.check(bit((r, c)));
            assert_eq!(moved, bit(rule(r, c)), "{} {r} {c}", movement.name);
        }
    }
}

#[test]
fn each_bit_alone_missing() {
    for (movement, rule) in RULES {
        for (r, c) in places() {
            let moved = movement.check(!bit((r, c)));
            assert_eq!(moved, !bit(rule(r, c)), "{} {r} {c}", movement.name);
        }
    }
}

#[test]
fn none_and_all() {
    for movement in MOVEMENTS {
        assert_eq!(movement.check(0), 0);
        assert_eq!(movement.check(u64::MAX), u64::MAX);
    }
}

/// Whole rows and columns, the places told from the picture: row 0 on top, column 7
/// at the left.
#[test]
fn each_row_and_column() {
    for i in 0..8 {
        let mirrored = 7 - i;
        for (movement, of_row, of_column) in [
            (TRANSPOSE, column(i), row(i)),
            (TURN_LEFT, column(mirrored), row(i)),
            (TURN_RIGHT, column(i), row(mirrored)),
            (MIRROR_COLUMNS, row(i), column(mirrored)),
            (MIRROR_ROWS, row(mirrored), column(i)),
        ] {
            assert_eq!(movement.check(row(i)), of_row, "{} {i}", movement.name);
            assert_eq!(movement.check(column(i)), of_column, "{}", movement.name);
        }
    }
    let [top, left, bottom, right] = [row(0), column(7), row(7), column(0)];
    for [one, next] in [[top, left], [left, bottom], [bottom, right], [right, top]] {
        assert_eq!(TURN_LEFT.check(one), next);
        assert_eq!(TURN_RIGHT.check(next), one);
    }
    for (movement, one, other) in [(MIRROR_COLUMNS, left, right), (MIRROR_ROWS, top, bottom)] {
        assert_eq!(movement.check(one), other);
        assert_eq!(movement.check(other), one);
    }
}

/// Drawn by hand: an F, and what each movement makes of it.
const LETTER: &str = "\
.######.
.#......
.#......
.####...
.#......
.#......
.#......
........";

const TRANSPOSED: &str = "\
........
.......#
.......#
....#..#
....#..#
....#..#
.#######
........";

const TURNED_LEFT: &str = "\
........
#.......
#.......
#..#....
#..#....
#..#....
#######.
........";

const TURNED_RIGHT: &str = "\
........
.#######
....#..#
....#..#
....#..#
.......#
.......#
........";

const COLUMNS_MIRRORED: &str = "\
.######.
......#.
......#.
...####.
......#.
......#.
......#.
........";

const ROWS_MIRRORED: &str = "\
........
.#......
.#......
.#......
.####...
.#......
.#......
.######.";

#[test]
fn a_letter() {
    let letter = drawn(LETTER);
    assert_eq!(letter, 0x0040_4040_7840_407E);
    assert_eq!(TRANSPOSE.check(letter), drawn(TRANSPOSED));
    assert_eq!(TURN_LEFT.check(letter), drawn(TURNED_LEFT));
    assert_eq!(TURN_RIGHT.check(letter), drawn(TURNED_RIGHT));
    assert_eq!(MIRROR_COLUMNS.check(letter), drawn(COLUMNS_MIRRORED));
    assert_eq!(MIRROR_ROWS.check(letter), drawn(ROWS_MIRRORED));
}

/// Every byte in every row between zeros and between ones.
#[test]
fn every_value_of_every_row() {
    for movement in MOVEMENTS {
        for r in 0..8 {
            for value in 0..=0xFF {
                let moved = movement.check(value << (8 * r));
                let among_ones = movement.check(value << (8 * r) | !row(r));
                assert_eq!(among_ones, moved | !movement.check(row(r)));
            }
        }
    }
}

/// "four left turns must restore the tile"
#[test]
fn four_turns_restore_the_tile() {
    holds(|tile| {
        for turn in [TURN_LEFT, TURN_RIGHT] {
            let turned = |tile| turn.check(tile);
            assert_eq!(turned(turned(turned(turned(tile)))), tile);
        }
    });
}

/// Not fewer: a tile with one corner alone.
#[test]
fn three_turns_do_not() {
    for turn in [TURN_LEFT, TURN_RIGHT] {
        let turned = |tile| turn.check(tile);
        let tiles = [turned(1), turned(turned(1)), turned(turned(turned(1)))];
        assert!(!tiles.contains(&1), "{}", turn.name);
    }
}

#[test]
fn either_turn_undoes_the_other() {
    holds(|tile| {
        assert_eq!(TURN_RIGHT.check(TURN_LEFT.check(tile)), tile);
        assert_eq!(TURN_LEFT.check(TURN_RIGHT.check(tile)), tile);
    });
}

#[test]
fn transpose_and_either_mirror_undo_themselves() {
    holds(|tile| {
        for movement in [TRANSPOSE, MIRROR_COLUMNS, MIRROR_ROWS] {
            assert_eq!(movement.check(movement.check(tile)), tile);
        }
    });
}

#[test]
fn a_turn_is_transpose_and_a_mirror() {
    holds(|tile| {
        let transposed = TRANSPOSE.check(tile);
        assert_eq!(TURN_LEFT.check(tile), MIRROR_COLUMNS.check(transposed));
        assert_eq!(TURN_RIGHT.check(tile), MIRROR_ROWS.check(transposed));
        let [columns, rows] = [MIRROR_COLUMNS, MIRROR_ROWS].map(|mirror| mirror.check(tile));
        assert_eq!(TURN_LEFT.check(tile), TRANSPOSE.check(rows));
        assert_eq!(TURN_RIGHT.check(tile), TRANSPOSE.check(columns));
    });
}

/// Which is the word reversed.
#[test]
fn two_turns_are_both_mirrors() {
    holds(|tile| {
        let half_turn = tile.reverse_bits();
        for turn in [TURN_LEFT, TURN_RIGHT] {
            assert_eq!(turn.check(turn.check(tile)), half_turn);
        }
        let mirrored = MIRROR_COLUMNS.check(MIRROR_ROWS.check(tile));
        assert_eq!(mirrored, half_turn);
        assert_eq!(MIRROR_ROWS.check(MIRROR_COLUMNS.check(tile)), half_turn);
    });
}

#[test]
fn mirrors_by_bytes() {
    holds(|tile| {
        let rows = tile.to_le_bytes();
        let mirrored = u64::from_le_bytes(rows.map(u8::reverse_bits));
        assert_eq!(MIRROR_COLUMNS.check(tile), mirrored);
        assert_eq!(MIRROR_ROWS.check(tile), u64::from_be_bytes(rows));
    });
}

/// A mirror exchanges neighbours, then pairs, then fours: bits, or rows of 8 bits.
#[test]
fn mirrors_by_exchanges() {
    holds(|tile| {
        for (mirror, sizes) in [(MIRROR_COLUMNS, [1, 2, 4]), (MIRROR_ROWS, [8, 16, 32])] {
            let exchanged = sizes
                .iter()
                .fold(tile, |tile, &size| EXCHANGE.result(size, tile, ()));
            assert_eq!(mirror.check(tile), exchanged);
        }
    });
}

/// Row p of the tile transposed has bit p of each row, as plane p has of each byte.
#[test]
fn transpose_by_planes() {
    holds(|tile| {
        let planes = TO_PLANES.check([tile, 0, 0, 0, 0, 0, 0, 0]);
        let transposed = u64::from_le_bytes(planes.map(|plane| plane as u8));
        assert_eq!(TRANSPOSE.check(tile), transposed);
    });
}

/// A movement is a permutation of 64 bits: both networks realise it.
#[test]
fn movements_by_networks() {
    let mut random = Random::default();
    for movement in MOVEMENTS {
        let permutation = realised(64, |tile| movement.check(tile));
        let routed = ROUTE.result(64, &permutation, ());
        for _ in 0..500 {
            let tile = any_word(&mut random, 64);
            let carried = BUTTERFLY.result(64, routed.butterfly, tile);
            let carried = INVERSE.result(64, routed.inverse, carried);
            assert_eq!(movement.check(tile), carried, "{}", movement.name);
        }
    }
}

/// Bits are moved, none is made or lost: what is done to two bits that meet may be
/// done before or after.
#[test]
fn bits_are_only_moved() {
    let mut random = Random::default();
    for _ in 0..5_000 {
        let [one, other] = [(); 2].map(|()| any_word(&mut random, 64));
        for movement in MOVEMENTS {
            let [moved, other_moved] = [one, other].map(|tile| movement.check(tile));
            assert_eq!(moved.count_ones(), one.count_ones());
            for by in BITWISE {
                assert_eq!(movement.check(by(one, other)), by(moved, other_moved));
            }
        }
    }
}
