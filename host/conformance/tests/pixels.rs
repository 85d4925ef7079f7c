//! Request 06 of paper 02: "The output must equal that rule at every dot, edges
//! included." Library, wrapper and model agree, and answer what follows from the rule
//! without either of them.

use conformance::pixels::{assert_number, Plane, Shape, LONGEST_SHAPES};
use conformance::samples::{random_words, Random};
use tigbayon::gather;

/// Every shape of up to so many rows, and words in a row.
fn shapes(rows: usize, row_words: usize) -> impl Iterator<Item = Shape> {
    (1..=rows).flat_map(move |rows| (1..=row_words).map(move |row_words| (rows, row_words)))
}

/// Checks a law on planes of every density and of small shapes.
fn holds(mut law: impl FnMut(&mut Random, Plane)) {
    let mut random = Random::default();
    for shape in shapes(5, 4) {
        for _ in 0..30 {
            let plane = Plane::any(&mut random, shape);
            law(&mut random, plane);
        }
    }
}

/// The wrapper's call alone, where it is made very often.
fn by_library(plane: &Plane) -> Plane {
    let (rows, row_words) = plane.shape();
    let mut new = Plane::lit(plane.shape());
    tigbayon::despeckle(&plane.words, rows, row_words, &mut new.words).expect("not refused");
    new
}

/// Whether these are two pixels, one of the eight around the other.
fn touch((r, c): (usize, usize), (other_r, other_c): (usize, usize)) -> bool {
    (r, c) != (other_r, other_c) && r.abs_diff(other_r) <= 1 && c.abs_diff(other_c) <= 1
}

/// The plane with the surroundings of this number about a place: "The row above fills
/// bits 8 to 6 from the left, the own row 5 to 3, the row below 2 to 0." What lies
/// outside the plane is left out, of the number too.
fn surrounded(mut plane: Plane, (r, c): (usize, usize), number: usize) -> (Plane, usize) {
    let (rows, columns) = (plane.shape().0, plane.columns());
    let mut inside = 0;
    for bit in (0..9).filter(|bit| number >> bit & 1 == 1) {
        // Bit 8 is a row above and a column to the left.
        let (row, column) = (r + 2 - bit / 3, c + 2 - bit % 3);
        if (1..=rows).contains(&row) && (1..=columns).contains(&column) {
            plane.turn_over((row - 1, column - 1));
            inside |= 1 << bit;
        }
    }
    (plane, inside)
}

/// "the new dot is lit exactly if bit 4 and at least one other bit are one"
fn is_lit(number: usize) -> bool {
    number & 0b000_010_000 != 0 && number & 0b111_101_111 != 0
}

/// All numbers, at every place of planes that have corners, edges and borders of words.
#[test]
fn every_number_at_every_place() {
    for shape in [(1, 1), (1, 2), (2, 1), (3, 1), (2, 2), (3, 3)] {
        let dark = Plane::dark(shape);
        for place in dark.places() {
            for number in 0..512 {
                let (plane, inside) = surrounded(dark.clone(), place, number);
                let new = by_library(&plane);
                assert_eq!(new.is_lit(place), is_lit(inside), "{place:?} {number:#b}");
            }
        }
    }
}

/// The same beside the model, in every pixel, about the corners of words and in them.
#[test]
fn every_number_about_the_corners() {
    for shape in [(1, 1), (1, 3), (3, 1), (4, 2)] {
        let dark = Plane::dark(shape);
        let telling = |&(_, c): &(usize, usize)| [0, 1, 31, 62, 63].contains(&(c % 64));
        for place in dark.places().filter(telling) {
            for number in 0..512 {
                let (plane, inside) = surrounded(dark.clone(), place, number);
                assert_eq!(plane.despeckled().is_lit(place), is_lit(inside));
            }
        }
    }
}

/// "Old scans leave lone dots."
#[test]
fn each_pixel_alone_goes_out() {
    for shape in shapes(4, 3) {
        let dark = Plane::dark(shape);
        for place in dark.places() {
            let new = dark.clone().with(&[place]).despeckled();
            assert_eq!(new, dark, "{shape:?} {place:?}");
        }
    }
}

/// It stays dark, and puts another out only where that one, at the end of a single row,
/// has no other to touch.
#[test]
fn each_pixel_alone_missing() {
    for shape in shapes(4, 3) {
        for (r, c) in Plane::lit(shape).places() {
            let plane = Plane::lit(shape).with(&[(r, c)]);
            let right = plane.columns() - 1;
            let alone = match c {
                1 if shape.0 == 1 => Some((0, 0)),
                _ if shape.0 == 1 && c + 1 == right => Some((0, right)),
                _ => None,
            };
            let new = plane.clone().with(alone.as_slice());
            assert_eq!(plane.despeckled(), new, "{shape:?} {r} {c}");
        }
    }
}

/// Two stay exactly if they touch, by a side or by a corner.
#[test]
fn each_two_pixels() {
    for shape in [(1, 1), (1, 2), (2, 1), (3, 1), (2, 2), (5, 1)] {
        let dark = Plane::dark(shape);
        for one in dark.places() {
            for other in dark.places().filter(|&other| one < other) {
                let plane = dark.clone().with(&[one, other]);
                let stay = touch(one, other);
                let expected = if stay { &plane } else { &dark };
                assert_eq!(by_library(&plane), *expected, "{one:?} {other:?}");
                if stay {
                    plane.despeckled();
                }
            }
        }
    }
}

/// "dots outside the plane are dark": the end of a row touches neither the beginning of
/// the next nor its own, the bottom not the top.
#[test]
fn nothing_touches_round_an_edge() {
    for shape in shapes(4, 3) {
        let dark = Plane::dark(shape);
        let (bottom, right) = (shape.0 - 1, dark.columns() - 1);
        for r in 0..shape.0 {
            for beginning in [r.saturating_sub(1), r, (r + 1).min(bottom)] {
                let plane = dark.clone().with(&[(r, right), (beginning, 0)]);
                assert_eq!(plane.despeckled(), dark, "{shape:?} {r}");
            }
        }
        for c in (0..=right).filter(|_| bottom > 1) {
            let plane = dark.clone().with(&[(0, c), (bottom, c)]);
            assert_eq!(plane.despeckled(), dark, "{shape:?} {c}");
        }
    }
}

/// At either side of each border between two words of a row.
#[test]
fn words_of_a_row_touch() {
    for shape in [(1, 2), (1, 5), (2, 3), (4, 4)] {
        let dark = Plane::dark(shape);
        for (r, c) in dark.places().filter(|&(_, c)| c % 64 == 63) {
            if c + 1 == dark.columns() {
                continue;
            }
            for beside in [r.saturating_sub(1), r, (r + 1).min(shape.0 - 1)] {
                let plane = dark.clone().with(&[(r, c), (beside, c + 1)]);
                assert_eq!(plane.despeckled(), plane, "{shape:?} {r} {c}");
            }
        }
    }
}

#[test]
fn none_and_all_come_back() {
    for shape in shapes(6, 5).chain(LONGEST_SHAPES) {
        for plane in [Plane::dark(shape), Plane::lit(shape)] {
            assert_eq!(plane.despeckled(), plane, "{shape:?}");
        }
    }
}

/// Drawn by hand: some that are alone, and some that are not.
const BEFORE: &str = "\
#......##..........#....
..#.............#.......
...#....#.#......##...#.
..........#.............
#.......#.#.#.........#.
.............#........#.
....####................
....#..#..#.....#.#.....
#...####.........#.....#";

/// What is left of it.
const AFTER: &str = "\
.......##...............
..#.............#.......
...#......#......##.....
..........#.............
..........#.#.........#.
.............#........#.
....####................
....#..#........#.#.....
....####.........#......";

/// At every place of a plane, across every border of words.
#[test]
fn a_picture() {
    for shape in [(9, 1), (10, 1), (9, 2), (11, 3)] {
        let dark = Plane::dark(shape);
        for top in 0..=shape.0 - 9 {
            for left in 0..=dark.columns() - 24 {
                let plane = dark.clone().drawn((top, left), BEFORE);
                let new = dark.clone().drawn((top, left), AFTER);
                assert_eq!(plane.despeckled(), new, "{shape:?} {top} {left}");
            }
        }
    }
}

/// In words, by hand: the left edge of three rows, and their right edge.
#[test]
fn a_few_words() {
    let plane = [
        0x8000_0000_0000_0002,
        0x4000_0000_0000_0001,
        0x0000_0000_0000_0000,
        0xA000_0000_0000_0005,
        0x0000_0001_8000_0000,
    ];
    let new = [
        0x8000_0000_0000_0002,
        0x4000_0000_0000_0001,
        0x0000_0000_0000_0000,
        0x0000_0000_0000_0000,
        0x0000_0001_8000_0000,
    ];
    let mut out = [7; 6];
    assert_number(0, &plane, (5, 1), &mut out);
    assert_eq!((&out[..5], out[5]), (&new[..], 7));
    // In one row no word lies above another.
    assert_number(0, &plane, (1, 5), &mut out);
    assert_eq!(out, [0, 0, 0, 0, 0x0000_0001_8000_0000, 7]);
    // A word's last pixel touches the first one of the next in its row, and no other.
    let plane = [1, 1 << 63, 1, 1 << 63];
    assert_number(0, &plane, (2, 2), &mut out);
    assert_eq!(out[..4], plane);
    assert_number(0, &plane, (4, 1), &mut out);
    assert_eq!(out[..4], [0; 4]);
}

/// Checks planes of these shapes, so many of any density and as many of pixels that are
/// lit or dark alike.
fn check_random(shapes: impl IntoIterator<Item = Shape>, rounds: u32) {
    let mut random = Random::default();
    for shape in shapes {
        for _ in 0..rounds {
            Plane::any(&mut random, shape).despeckled();
            Plane::random(&mut random, shape).despeckled();
        }
    }
}

#[test]
fn random_planes_of_every_small_shape() {
    check_random(shapes(9, 6), 40);
}

/// One row of any length, and rows of one word, of any number.
#[test]
fn rows_and_columns_of_words() {
    check_random((1..=130).flat_map(|words| [(1, words), (words, 1)]), 1);
}

#[test]
fn the_longest_planes() {
    check_random(LONGEST_SHAPES, 4);
}

/// "its words past the plane keep their values", however many they are.
#[test]
fn words_past_the_plane_stay() {
    let mut random = Random::default();
    for shape in shapes(4, 3) {
        let plane = Plane::any(&mut random, shape);
        let length = plane.words.len();
        let new = plane.despeckled().words;
        for out_length in (length..length + 10).chain([2_047, 2_048]) {
            let before = random_words(&mut random, out_length);
            let mut out = before.clone();
            assert_number(0, &plane.words, shape, &mut out);
            assert_eq!(out[..length], new);
            assert_eq!(out[length..], before[length..]);
        }
    }
}

/// What lies in memory before the plane and after it is no part of it.
#[test]
fn words_beside_the_plane_are_not_looked_at() {
    holds(|_, plane| {
        let new = plane.despeckled();
        let (rows, row_words) = plane.shape();
        for beside in [0, 1, 1 << 63, u64::MAX] {
            let beside = vec![beside; 2 * row_words];
            let all = [&beside, &plane.words, &beside].map(Vec::as_slice).concat();
            let among = &all[beside.len()..all.len() - beside.len()];
            let mut out = vec![u64::MAX; among.len()];
            tigbayon::despeckle(among, rows, row_words, &mut out).expect("not refused");
            assert_eq!(out, new.words);
        }
    });
}

/// Each pixel by the pixels around it, one by one.
#[test]
fn a_pixel_is_lit_if_it_was_and_one_that_touches_it() {
    holds(|_, plane| {
        let lit: Vec<_> = plane.places().filter(|&at| plane.is_lit(at)).collect();
        let new = plane.despeckled();
        let rows = 0..plane.shape().0;
        for r in rows {
            let near = lit.iter().filter(|(row, _)| row.abs_diff(r) <= 1);
            let near: Vec<_> = near.copied().collect();
            for c in 0..plane.columns() {
                let beside = near.iter().any(|&other| touch((r, c), other));
                let stays = plane.is_lit((r, c)) && beside;
                assert_eq!(new.is_lit((r, c)), stays, "{plane:x?} {r} {c}");
            }
        }
    });
}

#[test]
fn no_dark_pixel_is_lit() {
    holds(|_, plane| {
        let new = plane.despeckled();
        let words = plane.words.iter().zip(&new.words);
        assert!(words
            .into_iter()
            .all(|(before, after)| after & !before == 0));
    });
}

/// One that stays touches another, which stays by it.
#[test]
fn twice_is_once() {
    holds(|_, plane| {
        let once = plane.despeckled();
        assert_eq!(once.despeckled(), once);
    });
}

/// More pixels put none out.
#[test]
fn more_lit_pixels_leave_more() {
    holds(|random, plane| {
        let other = Plane::any(random, plane.shape());
        let mut both = plane.clone();
        for (word, other) in both.words.iter_mut().zip(&other.words) {
            *word |= other;
        }
        let (one, both) = (plane.despeckled(), both.despeckled());
        let mut words = one.words.iter().zip(&both.words);
        assert!(words.all(|(one, both)| one & !both == 0));
    });
}

/// Of new pixels only those that touch it, and itself.
#[test]
fn a_pixel_turned_over_changes_what_it_touches() {
    holds(|random, plane| {
        let (rows, columns) = (plane.shape().0 as u32, plane.columns() as u32);
        let place = (random.below(rows) as usize, random.below(columns) as usize);
        let new = plane.despeckled();
        let other = plane.with(&[place]).despeckled();
        let differ = |&at: &(usize, usize)| new.is_lit(at) != other.is_lit(at);
        let mut changed = new.places().filter(differ);
        assert!(changed.all(|at| at == place || touch(at, place)));
    });
}

/// The rule is the same in a mirror, from either side.
#[test]
fn mirrored_planes() {
    let columns_mirrored = |plane: &Plane| {
        let mut mirrored = plane.clone();
        for row in mirrored.words.chunks_mut(plane.shape().1) {
            row.reverse();
            row.iter_mut().for_each(|word| *word = word.reverse_bits());
        }
        mirrored
    };
    let rows_mirrored = |plane: &Plane| {
        let rows: Vec<&[u64]> = plane.words.chunks(plane.shape().1).rev().collect();
        let mut mirrored = plane.clone();
        mirrored.words = rows.concat();
        mirrored
    };
    holds(|_, plane| {
        let new = plane.despeckled();
        let mirrored = columns_mirrored(&plane).despeckled();
        assert_eq!(mirrored, columns_mirrored(&new));
        assert_eq!(rows_mirrored(&plane).despeckled(), rows_mirrored(&new));
    });
}

/// A row hangs on itself and on those beside it alone.
#[test]
fn each_row_by_three() {
    holds(|_, plane| {
        let (rows, row_words) = plane.shape();
        let new = plane.despeckled();
        for r in 0..rows {
            let (first, last) = (r.saturating_sub(1), (r + 1).min(rows - 1));
            let mut three = Plane::dark((last - first + 1, row_words));
            let words = first * row_words..(last + 1) * row_words;
            three.words.copy_from_slice(&plane.words[words]);
            let row = |plane: &Plane, r: usize| plane.words[r * row_words..][..row_words].to_vec();
            assert_eq!(row(&three.despeckled(), r - first), row(&new, r));
        }
    });
}

/// A row as one number, its leftmost pixel the highest bit: those beside a pixel are
/// shifted by one, and what leaves the number is outside the plane.
#[test]
fn rows_of_two_words_as_numbers() {
    let mut random = Random::default();
    for rows in 1..=12 {
        for _ in 0..60 {
            let plane = Plane::any(&mut random, (rows, 2));
            let number = |words: &[u64]| u128::from(words[0]) << 64 | u128::from(words[1]);
            let numbers: Vec<u128> = plane.words.chunks(2).map(number).collect();
            let at = |r: Option<usize>| r.and_then(|r| numbers.get(r)).copied().unwrap_or(0);
            let beside = |row: u128| row << 1 | row >> 1;
            let new = (0..rows).map(|r| {
                let [above, below] = [r.checked_sub(1), Some(r + 1)].map(at);
                let around = beside(above) | above | beside(numbers[r]) | beside(below) | below;
                numbers[r] & around
            });
            let words = new.flat_map(|row| [(row >> 64) as u64, row as u64]);
            assert_eq!(plane.despeckled().words, Vec::from_iter(words));
        }
    }
}

/// The number of a pixel by the library's own gather: three pixels of each row, as
/// Section 5.3 of document 001 has it.
#[test]
fn numbers_by_gather() {
    let mut random = Random::default();
    let three = |mask: u64, row: u64| gather(64, mask, row).expect("not refused").word as usize;
    for _ in 0..300 {
        let plane = Plane::any(&mut random, (3, 1));
        let new = plane.despeckled();
        for c in 1..63 {
            let mask = 0b111 << (62 - c);
            let rows = plane.words.iter().map(|&row| three(mask, row));
            let number = rows.fold(0, |number, three| number << 3 | three);
            assert_eq!(new.is_lit((1, c)), is_lit(number));
        }
    }
}
