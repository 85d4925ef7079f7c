//! Planes of another shape and lists that are too long or too short get the lowest number
//! that applies, and every word stays as it was.

use conformance::packing::LONGEST;
use conformance::pixels::{assert_number, wrapping_to, Plane, Shape};
use conformance::samples::{random_words, Random};

/// Numbers at and around these, and far beyond, among them some that a narrower integer
/// would cut to a few.
fn numbers() -> Vec<usize> {
    let half = 1 << (usize::BITS / 2);
    let top = 1 << (usize::BITS - 1);
    let mut numbers = vec![0, 1, 2, 3, 6, 7, LONGEST - 1, LONGEST, LONGEST + 1];
    numbers.extend([255, 256, 1 << 16, (1 << 16) + 1, half / 2, half - 1]);
    numbers.extend([half, half + 1, half + 6, 2 * half, top / 2, top - 1]);
    numbers.extend([top, top + 1, top + 3, usize::MAX / 3, usize::MAX / 6 + 1]);
    numbers.extend([usize::MAX - 5, usize::MAX - 1, usize::MAX]);
    numbers
}

/// The number of a call on lists of these lengths.
fn number(length: usize, (rows, row_words): Shape, out_length: usize) -> u8 {
    let product = rows as u128 * row_words as u128;
    if length > LONGEST || out_length > LONGEST {
        9
    } else if product > out_length as u128 {
        10
    } else if product == 0 || product != length as u128 {
        13
    } else {
        0
    }
}

/// Checks the call on random words, in lists of these lengths.
fn check(random: &mut Random, length: usize, shape: Shape, out_length: usize) {
    let number = number(length, shape, out_length);
    let plane = random_words(random, length);
    let mut out = random_words(random, out_length);
    assert_number(number, &plane, shape, &mut out);
}

#[test]
fn every_small_shape_and_length() {
    let mut random = Random::default();
    for rows in 0..=8 {
        for row_words in 0..=8 {
            for length in 0..=10 {
                for out_length in 0..=10 {
                    check(&mut random, length, (rows, row_words), out_length);
                }
            }
        }
    }
}

/// The product is the true one, whatever a word can hold.
#[test]
fn great_numbers_of_rows_and_words() {
    let mut random = Random::default();
    for rows in numbers() {
        for row_words in numbers() {
            for length in [0, 1, 6, LONGEST] {
                for out_length in [0, 1, 5, 6, 7, LONGEST] {
                    check(&mut random, length, (rows, row_words), out_length);
                }
            }
        }
    }
}

/// Where it wraps around to the plane's length, in 64 bits or in 32, no word is written.
#[test]
fn products_that_wrap_around_to_the_length() {
    let mut random = Random::default();
    for length in [0, 1, 2, 6, 12, 64, LONGEST - 1, LONGEST] {
        let plane = random_words(&mut random, length);
        for _ in 0..100 {
            let odd = random.word() as usize | 1 << 63 | 1;
            let other = wrapping_to(length, odd);
            assert_eq!(odd.wrapping_mul(other), length);
            let number = if length == 0 { 13 } else { 10 };
            for shape in [(odd, other), (other, odd)] {
                assert_number(number, &plane, shape, &mut vec![7; length]);
                assert_number(number, &plane, shape, &mut [7; LONGEST]);
            }
        }
    }
    let long = random_words(&mut random, LONGEST);
    for high in [1 << 32, 1 << 63, 3 << 62, 5 << 61] {
        for shape in [
            (high, 1),
            (1, high),
            (high, 6),
            (high + 3, 2),
            (2, high + 3),
        ] {
            assert_number(10, &[1; 6], shape, &mut [7; 6]);
            assert_number(10, &long, shape, &mut [7; LONGEST]);
        }
    }
}

/// Rows or words in a row zero: there is nothing to write, however great the other is.
#[test]
fn no_rows_or_no_words_are_refusal_13() {
    let mut random = Random::default();
    for other in numbers() {
        for length in [0, 1, 6, LONGEST] {
            let plane = random_words(&mut random, length);
            for out_length in [0, 1, 6, LONGEST] {
                let mut out = random_words(&mut random, out_length);
                assert_number(13, &plane, (0, other), &mut out);
                assert_number(13, &plane, (other, 0), &mut out);
            }
        }
    }
}

/// Either list, whatever the shape, and whatever else applies.
#[test]
fn either_list_above_2048_words_is_refusal_9() {
    let mut random = Random::default();
    let lengths = [0, 1, LONGEST - 1, LONGEST];
    let long = [LONGEST + 1, 2 * LONGEST, 1 << 16, (1 << 16) + 6];
    let shapes = [
        (0, 0),
        (1, 1),
        (1, LONGEST),
        (LONGEST + 1, 1),
        (1, LONGEST + 1),
        (3, 683),
        (1 << 32, 1 << 32),
        (usize::MAX, usize::MAX),
        (1, (1 << 16) + 6),
    ];
    for shape in shapes {
        for length in long {
            for other in lengths.into_iter().chain(long) {
                check(&mut random, length, shape, other);
                check(&mut random, other, shape, length);
            }
        }
    }
}

/// "2,048 words" are accepted, in either list or in both.
#[test]
fn lists_of_2048_words_are_accepted() {
    let mut random = Random::default();
    for length in [1, LONGEST - 1, LONGEST] {
        let plane = random_words(&mut random, length);
        for out_length in [length, LONGEST] {
            for shape in [(1, length), (length, 1)] {
                assert_number(0, &plane, shape, &mut vec![7; out_length]);
            }
        }
    }
    let plane = random_words(&mut random, LONGEST);
    for power in 0..=11 {
        let shape = (1 << power, LONGEST >> power);
        assert_number(0, &plane, shape, &mut [7; LONGEST]);
    }
}

/// Exactly the shapes whose product is the length.
#[test]
fn every_shape_of_a_plane() {
    let mut random = Random::default();
    for length in [1, 2, 12, 30] {
        let plane = random_words(&mut random, length);
        for rows in 0..=length + 2 {
            for row_words in 0..=length + 2 {
                let fits = rows * row_words == length;
                let mut out = random_words(&mut random, 2_000);
                assert_number(
                    if fits { 0 } else { 13 },
                    &plane,
                    (rows, row_words),
                    &mut out,
                );
            }
        }
    }
}

/// The memory after a short list would complete it.
#[test]
fn short_parts_of_either_list() {
    let mut random = Random::default();
    for shape in [(1, 1), (3, 1), (1, 3), (4, 3), (32, 64)] {
        let plane = Plane::random(&mut random, shape).words;
        let length = plane.len();
        let mut out = random_words(&mut random, length);
        for short in [0, 1, length / 2, length - 2.min(length), length - 1] {
            let shorter = short < length;
            let numbers = if shorter { (10, 13) } else { (0, 0) };
            assert_number(numbers.0, &plane, shape, &mut out[..short]);
            assert_number(numbers.1, &plane[..short], shape, &mut out);
            assert_number(numbers.0, &plane[..short], shape, &mut out[..short]);
        }
    }
}

/// "after 12": 9 with 10 and with 13, 10 with 13, and all three.
#[test]
fn the_lowest_number_wins() {
    let long = [1; LONGEST + 1];
    let mut long_out = [7; LONGEST + 1];
    assert_number(9, &long, (1, LONGEST + 1), &mut [7; 3]);
    assert_number(9, &long, (1, 3), &mut [7; 3]);
    assert_number(9, &long, (0, 3), &mut [7; 3]);
    assert_number(9, &long, (2, 2), &mut [7; 3]);
    assert_number(9, &long[..3], (1, 3), &mut long_out);
    assert_number(9, &long[..3], (2, 2), &mut long_out);
    assert_number(9, &long[..3], (1 << 32, 1 << 32), &mut long_out);
    assert_number(10, &long[..3], (1, 4), &mut [7; 3]);
    assert_number(10, &long[..3], (1, 3), &mut [7; 2]);
    assert_number(10, &long[..3], (1 << 32, 1 << 32), &mut [7; 3]);
    assert_number(10, &[], (1, 1), &mut []);
    assert_number(13, &long[..3], (1, 4), &mut [7; 4]);
    assert_number(13, &long[..3], (1, 2), &mut [7; 2]);
    assert_number(13, &[], (0, 0), &mut []);
    assert_number(13, &[], (0, usize::MAX), &mut []);
    assert_number(0, &long[..3], (1, 3), &mut [7; 3]);
}
