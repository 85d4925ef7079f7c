//! Misreadings of request 06 of paper 02, planes of pixels: the library has none of
//! them, and each would be seen, on planes of the shapes that are named; some are none,
//! since the rule is the same in a mirror.

use conformance::packing::LONGEST;
use conformance::pixels::{assert_number, Plane, Shape};
use conformance::samples::Random;

/// A row and a column.
type Place = (usize, usize);

/// A reading of the request.
#[derive(Clone, Copy)]
struct Reading {
    /// The number of the word of a pixel, and its bit.
    bit: fn(Shape, Place) -> (usize, usize),
    /// The place that is looked at from this one, so many rows down and columns to the
    /// right; where there is none, whether it is taken as lit.
    around: fn(Shape, Place, (isize, isize)) -> Result<Place, bool>,
    /// Whether the new pixel of this number is lit.
    is_lit: fn(usize) -> bool,
}

/// The request's: "the top row first, each row's leftmost dot in the highest line of its
/// first word; dots outside the plane are dark", "the new dot is lit exactly if bit 4
/// and at least one other bit are one".
const READING: Reading = Reading {
    bit: |(_, row_words), (r, c)| (r * row_words + c / 64, 63 - c % 64),
    around: |shape, from, by| inside(shape, from, by).ok_or(false),
    is_lit: |number| number & 0o020 != 0 && number & 0o757 != 0,
};

/// The place beside this one, if it is inside the plane.
fn inside((rows, row_words): Shape, (r, c): Place, (down, right): (isize, isize)) -> Option<Place> {
    let place = (r.checked_add_signed(down)?, c.checked_add_signed(right)?);
    (place.0 < rows && place.1 < 64 * row_words).then_some(place)
}

impl Reading {
    /// The words of the new plane.
    fn despeckled(self, shape: Shape, words: &[u64]) -> Vec<u64> {
        let mut new = vec![0; words.len()];
        for place in Plane::dark(shape).places() {
            let (word, bit) = (self.bit)(shape, place);
            let lit = (self.is_lit)(self.number(shape, words, place));
            new[word] |= u64::from(lit) << bit;
        }
        new
    }

    /// "The row above fills bits 8 to 6 from the left, the own row 5 to 3, the row below
    /// 2 to 0."
    fn number(self, shape: Shape, words: &[u64], place: Place) -> usize {
        (0..9).fold(0, |number, n| {
            let lit = match (self.around)(shape, place, (n / 3 - 1, n % 3 - 1)) {
                Ok(place) => {
                    let (word, bit) = (self.bit)(shape, place);
                    words[word] >> bit & 1 == 1
                }
                Err(lit) => lit,
            };
            number << 1 | usize::from(lit)
        })
    }
}

/// Shapes with and without rows above and below, and borders of words.
const SHAPES: [Shape; 7] = [(1, 1), (1, 2), (2, 1), (3, 1), (1, 3), (2, 2), (3, 3)];

/// Checks that the call goes by the request's reading, and that the other would be seen
/// on planes of these shapes, and of no others.
fn assert_seen(misread: Reading, seen: fn(Shape) -> bool) {
    let mut random = Random::default();
    for shape in SHAPES {
        let mut differs = false;
        for _ in 0..200 {
            let plane = Plane::any(&mut random, shape);
            let new = plane.despeckled().words;
            assert_eq!(new, READING.despeckled(shape, &plane.words));
            differs |= new != misread.despeckled(shape, &plane.words);
        }
        assert_eq!(differs, seen(shape), "{shape:?}");
    }
}

/// Another rule of new pixels is seen on planes of every shape.
fn assert_not_the_rule(is_lit: fn(usize) -> bool) {
    assert_seen(Reading { is_lit, ..READING }, |_| true);
}

/// "in the highest line of its first word", and not in the lowest. In rows of one word
/// that is a mirror.
#[test]
fn the_leftmost_pixel_is_not_bit_0() {
    let bit = |(_, row_words): Shape, (r, c): Place| (r * row_words + c / 64, c % 64);
    assert_seen(Reading { bit, ..READING }, |shape| shape.1 > 1);
}

/// "of its first word", and not of its last. With the leftmost pixel in bit 0 that, too,
/// is a mirror.
#[test]
fn words_of_a_row_are_not_from_the_right() {
    let bit = |(_, v): Shape, (r, c): Place| (r * v + v - 1 - c / 64, 63 - c % 64);
    assert_seen(Reading { bit, ..READING }, |shape| shape.1 > 1);
    let bit = |(_, v): Shape, (r, c): Place| (r * v + v - 1 - c / 64, c % 64);
    assert_seen(Reading { bit, ..READING }, |_| false);
}

/// "the top row first": from the bottom it is the same rule in a mirror.
#[test]
fn rows_from_the_bottom_are_the_same() {
    let bit = |(h, v): Shape, (r, c): Place| ((h - 1 - r) * v + c / 64, 63 - c % 64);
    assert_seen(Reading { bit, ..READING }, |_| false);
}

/// The words of a row lie together, and not those of a column.
#[test]
fn rows_are_not_columns_of_words() {
    let bit = |(h, _): Shape, (r, c): Place| (c / 64 * h + r, 63 - c % 64);
    assert_seen(Reading { bit, ..READING }, |(h, v)| h > 1 && v > 1);
}

/// "h rows of v words", and not v rows of h words.
#[test]
fn rows_and_words_are_not_exchanged() {
    let mut random = Random::default();
    for (h, v) in [(1, 2), (2, 1), (3, 2), (2, 4)] {
        let mut differs = false;
        for _ in 0..50 {
            let plane = Plane::any(&mut random, (h, v));
            let misread = READING.despeckled((v, h), &plane.words);
            differs |= plane.despeckled().words != misread;
        }
        assert!(differs, "{h} {v}");
    }
}

/// "dots outside the plane are dark": and not lit.
#[test]
fn pixels_outside_are_not_lit() {
    let around = |shape, from, by| inside(shape, from, by).ok_or(true);
    assert_seen(Reading { around, ..READING }, |_| true);
}

/// Nor as those at the edge beside them, which would never be alone.
#[test]
fn the_edge_does_not_go_on() {
    let around = |(h, v): Shape, (r, c): Place, (down, right): (isize, isize)| {
        let [r, c] = [(r, down, h), (c, right, 64 * v)]
            .map(|(at, by, count)| at.saturating_add_signed(by).min(count - 1));
        Ok((r, c))
    };
    assert_seen(Reading { around, ..READING }, |_| true);
}

/// The end of a row does not touch the beginning of the next, as the bits of the list do.
/// Above the next there, it would touch that of its own.
#[test]
fn rows_do_not_go_on_in_the_next() {
    let around = |(h, v): Shape, (r, c): Place, (down, right): (isize, isize)| {
        let columns = 64 * v;
        let at = (r * columns + c) as isize + down * columns as isize + right;
        let at = usize::try_from(at).map_err(|_| false)?;
        let place = (at / columns, at % columns);
        (place.0 < h).then_some(place).ok_or(false)
    };
    assert_seen(Reading { around, ..READING }, |_| true);
}

/// Nor its own.
#[test]
fn rows_are_not_rings() {
    let around = |(h, v): Shape, (r, c): Place, (down, right): (isize, isize)| {
        let c = (c + 64 * v).saturating_add_signed(right) % (64 * v);
        inside((h, v), (r, c), (down, 0)).ok_or(false)
    };
    assert_seen(Reading { around, ..READING }, |_| true);
}

/// The bottom row does not touch the top one: of two rows each lies beside the other.
#[test]
fn columns_are_not_rings() {
    let around = |(h, v): Shape, (r, c): Place, (down, right): (isize, isize)| {
        let r = (r + h).saturating_add_signed(down) % h;
        inside((h, v), (r, c), (0, right)).ok_or(false)
    };
    assert_seen(Reading { around, ..READING }, |(h, _)| h != 2);
}

/// A row is not cut where a word ends.
#[test]
fn words_of_a_row_are_not_apart() {
    let around = |shape: Shape, from: Place, by: (isize, isize)| {
        let place = inside(shape, from, by).ok_or(false)?;
        (place.1 / 64 == from.1 / 64).then_some(place).ok_or(false)
    };
    assert_seen(Reading { around, ..READING }, |shape| shape.1 > 1);
}

/// Nor in its own row alone, with those above and below going on.
#[test]
fn words_are_not_apart_in_any_row() {
    let own: fn(Shape, Place, (isize, isize)) -> Result<Place, bool> = |shape, from, by| {
        let place = inside(shape, from, by).ok_or(false)?;
        let apart = by.0 == 0 && place.1 / 64 != from.1 / 64;
        (!apart).then_some(place).ok_or(false)
    };
    let others: fn(Shape, Place, (isize, isize)) -> Result<Place, bool> = |shape, from, by| {
        let place = inside(shape, from, by).ok_or(false)?;
        let apart = by.0 != 0 && place.1 / 64 != from.1 / 64;
        (!apart).then_some(place).ok_or(false)
    };
    let around = own;
    assert_seen(Reading { around, ..READING }, |(_, v)| v > 1);
    let around = others;
    assert_seen(Reading { around, ..READING }, |(h, v)| h > 1 && v > 1);
}

/// "three by three surroundings": the corners too, and not the sides alone.
#[test]
fn corners_touch() {
    let is_lit = |number| number & 0o020 != 0 && number & 0o252 != 0;
    assert_seen(Reading { is_lit, ..READING }, |(h, _)| h > 1);
}

/// And not the corners alone, nor one row, nor one column.
#[test]
fn sides_touch() {
    assert_not_the_rule(|number| number & 0o020 != 0 && number & 0o505 != 0);
    assert_not_the_rule(|number| number & 0o020 != 0 && number & 0o202 != 0);
    let is_lit = |number| number & 0o020 != 0 && number & 0o050 != 0;
    assert_seen(Reading { is_lit, ..READING }, |(h, _)| h > 1);
}

/// None of the eight is left out.
#[test]
fn each_of_the_eight_touches() {
    macro_rules! without {
        ($($bit:literal)+) => {
            [$(|number| number & 0o020 != 0 && number & (0o757 & !(1 << $bit)) != 0),+]
        };
    }
    let rules: [fn(usize) -> bool; 8] = without!(0 1 2 3 5 6 7 8);
    for (is_lit, bit) in rules.into_iter().zip([0, 1, 2, 3, 5, 6, 7, 8]) {
        // In a single row there is none above or below.
        let seen = if [3, 5].contains(&bit) {
            |_: Shape| true
        } else {
            |(h, _): Shape| h > 1
        };
        assert_seen(Reading { is_lit, ..READING }, seen);
    }
}

/// "at least one other bit": bit 4 is no other to itself, else no pixel would go out.
#[test]
fn a_pixel_does_not_touch_itself() {
    assert_not_the_rule(|number| number & 0o020 != 0);
}

/// "bit 4 and": a dark pixel stays dark, whatever is around it.
#[test]
fn a_dark_pixel_is_not_filled() {
    assert_not_the_rule(|number| number & 0o757 != 0);
    assert_not_the_rule(|number| number != 0 && number != 0o020);
    let is_lit = |number| number == 0o757 || (READING.is_lit)(number);
    assert_seen(Reading { is_lit, ..READING }, |(h, _)| h > 2);
}

/// "at least one", and not two, nor exactly one, nor all, nor a majority.
#[test]
fn one_other_is_enough() {
    assert_not_the_rule(|number| number & 0o020 != 0 && number.count_ones() > 2);
    assert_not_the_rule(|number| number & 0o020 != 0 && number.count_ones() == 2);
    assert_not_the_rule(|number| number == 0o777);
    assert_not_the_rule(|number| number.count_ones() > 4);
}

/// What is asked for is what stays, and not what goes out.
#[test]
fn lone_pixels_are_not_what_is_left() {
    assert_not_the_rule(|number| number == 0o020);
}

/// The bits of a number in another order, with the pixel itself at bit 4, are the same
/// rule.
#[test]
fn numbers_in_reversed_order_are_the_same() {
    let is_lit = |number: usize| (READING.is_lit)(number.reverse_bits() >> (usize::BITS - 9));
    assert_seen(Reading { is_lit, ..READING }, |_| false);
}

/// "The new plane goes into a second lent strip": in the plane itself it would be the
/// same, as one that goes out touches none.
#[test]
fn new_pixels_beside_old_ones_are_the_same() {
    let mut random = Random::default();
    for shape in SHAPES {
        for _ in 0..50 {
            let plane = Plane::any(&mut random, shape);
            let mut misread = plane.clone();
            for place in plane.places() {
                let number = READING.number(shape, &misread.words, place);
                if misread.is_lit(place) && !(READING.is_lit)(number) {
                    misread.turn_over(place);
                }
            }
            assert_eq!(plane.despeckled(), misread);
        }
    }
}

/// "its words past the plane keep their values", and do not become dark.
#[test]
fn words_past_the_plane_are_not_written() {
    let mut out = [7; 5];
    assert_number(0, &[3, 3], (2, 1), &mut out);
    assert_eq!(out, [3, 3, 7, 7, 7]);
    let misread = [3, 3, 0, 0, 0];
    assert_ne!(out, misread);
}

/// "v×h differs from the first strip's length", and not from the second's, nor is it
/// enough if the first one is long enough.
#[test]
fn a_plane_is_as_long_as_its_shape() {
    let calls = [(0, 6, 6), (0, 6, 9), (13, 5, 6), (13, 9, 6)];
    for (number, length, out_length) in calls {
        let plane = vec![u64::MAX; length];
        assert_number(number, &plane, (2, 3), &mut vec![7; out_length]);
    }
    let seen = |misread: fn(usize, usize) -> bool| {
        let mut calls = calls.into_iter();
        calls.any(|(number, length, out_length)| misread(length, out_length) != (number == 13))
    };
    assert!(seen(|_, out_length| out_length != 6));
    assert!(seen(|length, _| length < 6));
}

/// "shorter than v×h words", and not than the plane, nor than a word for every bit.
#[test]
fn a_second_list_is_short_of_the_shape() {
    assert_number(13, &[1; 9], (2, 3), &mut [7; 6]);
    assert_number(10, &[1; 4], (2, 3), &mut [7; 5]);
    assert_number(0, &[1; 6], (2, 3), &mut [7; 6]);
}

/// "13, h or v is zero": that is no plane without pixels, and nothing is carried out.
#[test]
fn an_empty_plane_is_none() {
    for shape in [(0, 0), (0, 1), (1, 0), (0, usize::MAX), (usize::MAX, 0)] {
        assert_number(13, &[], shape, &mut []);
        assert_number(13, &[], shape, &mut [7; 3]);
    }
}

/// v×h is a number, which a word need not hold: cut to 64 bits, or to 32, these would
/// be the plane's length.
#[test]
fn the_product_is_not_cut() {
    let (half, top) = (1_usize << 32, 1_usize << 63);
    for (length, shape) in [
        (1, (usize::MAX, usize::MAX)),
        (4, (top + 2, 2)),
        (6, (top + 3, 2)),
        (6, (2, top + 3)),
        (6, (half + 6, 1)),
        (6, (half + 2, 3)),
    ] {
        let cut = shape.0.wrapping_mul(shape.1);
        assert!(cut == length || cut as u32 as usize == length);
        assert_number(10, &vec![1; length], shape, &mut vec![7; length]);
    }
    assert_number(10, &[1; 6], (half, half), &mut [7; 6]);
    assert_number(10, &[], (half, half), &mut []);
}

/// "A strip above 2,048 words meets 9": not one of 2,048, and either strip.
#[test]
fn a_list_of_2048_words_is_not_too_long() {
    for (number, length, out_length) in [
        (0, LONGEST, LONGEST),
        (9, LONGEST + 1, LONGEST + 1),
        (9, LONGEST, LONGEST + 1),
        (9, LONGEST + 1, LONGEST),
    ] {
        let plane = vec![u64::MAX; length];
        assert_number(number, &plane, (1, length), &mut vec![7; out_length]);
    }
}

/// "after 12": asked first, 13 would be the answer to each of these calls.
#[test]
fn the_shape_is_not_asked_for_first() {
    let long = [1; LONGEST + 1];
    for (number, length, out_length) in [(9, LONGEST + 1, 4), (10, 5, 3), (13, 5, 4)] {
        let misread = 2 * 2 != length;
        assert!(misread);
        assert_number(number, &long[..length], (2, 2), &mut vec![7; out_length]);
    }
}
