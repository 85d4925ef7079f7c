//! Request 05 of paper 02: check, excheck, mix left and right on two words, exchange
//! on one, at every size. Library, wrapper and model agree, and answer what follows
//! from document 002's sentences without either of them.

use conformance::call::{check_all, Call, BUTTERFLY, INVERSE, PAIR_CALLS};
use conformance::call::{CHECK, EXCHANGE, EXCHECK, MIX_LEFT, MIX_RIGHT};
use conformance::controls::pass_all;
use conformance::samples::{any_word, for_each, Random};
use conformance::{low_ones, BITWISE, SIZES};
use std::iter::zip;

/// The place where a subword goes, by its number from the left; none if it is left
/// out.
type Place = fn(u32) -> Option<u32>;

/// Where the subwords of the first word go, and those of the second.
const PLACES: [(Call<u64>, [Place; 2]); 4] = [
    (CHECK, [|i| even(i).then_some(i), |i| odd(i).then_some(i)]),
    (
        EXCHECK,
        [|i| even(i).then(|| i + 1), |i| odd(i).then(|| i - 1)],
    ),
    (
        MIX_LEFT,
        [|i| even(i).then_some(i), |i| even(i).then(|| i + 1)],
    ),
    (
        MIX_RIGHT,
        [|i| odd(i).then(|| i - 1), |i| odd(i).then_some(i)],
    ),
];

fn even(i: u32) -> bool {
    i % 2 == 0
}

fn odd(i: u32) -> bool {
    !even(i)
}

/// The word of this subword, counted from the left, alone.
fn subword(size: u32, i: u32, value: u64) -> u64 {
    value << (64 - size * (i + 1))
}

/// A word's subwords, the leftmost first.
fn subwords(size: u32, word: u64) -> Vec<u64> {
    let place = |i| 64 - size * (i + 1);
    let parts = (0..64 / size).map(|i| word >> place(i) & low_ones(size));
    parts.collect()
}

/// Every subword's number with each bit of it.
fn bits(size: u32) -> impl Iterator<Item = (u32, u64)> {
    (0..64 / size).flat_map(move |i| (0..size).map(move |p| (i, 1 << p)))
}

/// Checks a law on words of every pair of shapes, at every size.
fn holds(law: impl Fn(u32, u64, u64)) {
    for size in SIZES {
        for_each(64, 20, |first, second| law(size, first, second));
    }
}

#[test]
fn each_bit_of_either_word_alone() {
    for size in SIZES {
        for (i, bit) in bits(size) {
            let word = subword(size, i, bit);
            for (call, [of_first, of_second]) in PLACES {
                let moved = |place: Option<u32>| place.map_or(0, |i| subword(size, i, bit));
                assert_eq!(call.result(size, word, 0), moved(of_first(i)));
                assert_eq!(call.result(size, 0, word), moved(of_second(i)));
            }
            let exchanged = subword(size, i ^ 1, bit);
            assert_eq!(EXCHANGE.result(size, word, ()), exchanged);
        }
    }
}

#[test]
fn each_bit_of_either_word_alone_missing() {
    for size in SIZES {
        for (i, bit) in bits(size) {
            let word = subword(size, i, bit);
            for (call, [of_first, of_second]) in PLACES {
                let moved = |place: Option<u32>| place.map_or(0, |i| subword(size, i, bit));
                assert_eq!(call.result(size, !word, !0), !moved(of_first(i)));
                assert_eq!(call.result(size, !0, !word), !moved(of_second(i)));
            }
            let exchanged = subword(size, i ^ 1, bit);
            assert_eq!(EXCHANGE.result(size, !word, ()), !exchanged);
        }
    }
}

#[test]
fn none_and_all() {
    for size in SIZES {
        for call in PAIR_CALLS {
            assert_eq!(call.result(size, 0, 0), 0);
            assert_eq!(call.result(size, !0, !0), !0);
        }
        assert_eq!(EXCHANGE.result(size, 0, ()), 0);
        assert_eq!(EXCHANGE.result(size, !0, ()), !0);
    }
}

#[test]
fn samples_of_every_size() {
    let sampled = |size| {
        for_each(64, 400, |first, second| {
            check_all(&PAIR_CALLS, size, first, second);
            EXCHANGE.check(size, first ^ second, ());
        })
    };
    let count: u32 = SIZES.map(sampled).iter().sum();
    assert!(count >= 240_000, "five calls each");
}

/// Subword by subword, in the words of the header.
#[test]
fn by_number() {
    holds(|size, first, second| {
        let [one, other] = [first, second].map(|word| subwords(size, word));
        let calls = [CHECK, EXCHECK, MIX_LEFT, MIX_RIGHT];
        let [checked, exchecked, left, right] =
            calls.map(|call| subwords(size, call.result(size, first, second)));
        let exchanged = subwords(size, EXCHANGE.result(size, first, ()));
        for i in (0..one.len()).step_by(2) {
            assert_eq!(checked[i..][..2], [one[i], other[i + 1]]);
            assert_eq!(exchecked[i..][..2], [other[i + 1], one[i]]);
            assert_eq!(left[i..][..2], [one[i], other[i]]);
            assert_eq!(right[i..][..2], [one[i + 1], other[i + 1]]);
            assert_eq!(exchanged[i..][..2], [one[i + 1], one[i]]);
        }
    });
}

#[test]
fn exchange_undoes_itself() {
    holds(|size, word, _| {
        let exchanged = EXCHANGE.result(size, word, ());
        assert_eq!(EXCHANGE.result(size, exchanged, ()), word);
    });
}

/// "it performs a check on the two source registers, followed by an exchange
/// operation on the result"
#[test]
fn excheck_is_exchange_after_check() {
    holds(|size, first, second| {
        let checked = CHECK.result(size, first, second);
        let exchanged = EXCHANGE.result(size, checked, ());
        assert_eq!(EXCHECK.result(size, first, second), exchanged);
    });
}

/// Section 4.2: check "allows the downward and upward swapping of elements".
#[test]
fn check_of_both_ways_undoes_itself() {
    holds(|size, first, second| {
        let one = CHECK.result(size, first, second);
        let other = CHECK.result(size, second, first);
        assert_eq!(CHECK.result(size, one, other), first);
        assert_eq!(CHECK.result(size, other, one), second);
    });
}

/// Section 4.2: the mix operations "achieve the swapping of diagonal elements",
/// which twice gives both words back.
#[test]
fn mix_left_and_right_undo_themselves() {
    holds(|size, first, second| {
        let [left, right] = [MIX_LEFT, MIX_RIGHT].map(|mix| mix.result(size, first, second));
        assert_eq!(MIX_LEFT.result(size, left, right), first);
        assert_eq!(MIX_RIGHT.result(size, left, right), second);
    });
}

/// Where all subwords of both words differ, by size 8 and up.
#[test]
fn each_subword_is_in_mix_left_or_in_mix_right_once() {
    let [first, second] = [*b"abcdefgh", *b"ABCDEFGH"].map(u64::from_be_bytes);
    for size in [8, 16, 32] {
        for (one, other) in [(MIX_LEFT, MIX_RIGHT), (MIX_RIGHT, MIX_LEFT)] {
            let mixed = [one, other].map(|mix| subwords(size, mix.result(size, first, second)));
            let mut mixed = mixed.concat();
            let mut given = [first, second].map(|word| subwords(size, word)).concat();
            mixed.sort_unstable();
            given.sort_unstable();
            assert_eq!(mixed, given);
        }
    }
}

/// The same of single bits, at every size: each of both words comes to one place.
#[test]
fn each_bit_is_in_mix_left_or_in_mix_right_once() {
    for size in SIZES {
        let mut places = [0; 2];
        for words in (0..64).flat_map(|p| [(1 << p, 0), (0, 1 << p)]) {
            let mixed = [MIX_LEFT, MIX_RIGHT].map(|mix| mix.result(size, words.0, words.1));
            assert_eq!(mixed.map(u64::count_ones).iter().sum::<u32>(), 1);
            for (places, word) in zip(&mut places, mixed) {
                assert_eq!(*places & word, 0);
                *places |= word;
            }
        }
        assert_eq!(places, [u64::MAX; 2]);
    }
}

#[test]
fn of_one_word_given_twice() {
    holds(|size, word, _| {
        assert_eq!(CHECK.result(size, word, word), word);
        let exchanged = EXCHANGE.result(size, word, ());
        assert_eq!(EXCHECK.result(size, word, word), exchanged);
    });
}

/// Section 5: check is what "a Shift_Left of the second operand, followed by a mixL
/// instruction can accomplish".
#[test]
fn check_is_mix_left_after_a_shift() {
    holds(|size, first, second| {
        let mixed = MIX_LEFT.result(size, first, second << size);
        assert_eq!(CHECK.result(size, first, second), mixed);
    });
}

/// Exchange at a size is the stage of that distance, all its switches at swap and
/// all others at pass.
#[test]
fn exchange_is_one_stage_of_either_network() {
    holds(|size, word, _| {
        let exchanged = EXCHANGE.result(size, word, ());
        let log = size.ilog2() as usize;
        for (network, stage) in [(BUTTERFLY, 5 - log), (INVERSE, log)] {
            let mut controls = pass_all(64);
            controls[stage] = 0;
            assert_eq!(network.result(64, controls, word), exchanged);
        }
    });
}

/// As a network with all its switches at swap does.
#[test]
fn exchanges_at_all_sizes_reverse_the_word() {
    let mut random = Random::default();
    for _ in 0..2_000 {
        let word = any_word(&mut random, 64);
        let exchange = |word, &size: &u32| EXCHANGE.result(size, word, ());
        assert_eq!(SIZES.iter().fold(word, exchange), word.reverse_bits());
        assert_eq!(SIZES.iter().rev().fold(word, exchange), word.reverse_bits());
    }
}

/// Section 3.2: mixL and mixR "are used in pairs at the level of a subword size equal
/// to the matrix element size. Then, they are used at the size of subwords that are
/// twice as large": 64/size words, of as many elements, are transposed.
#[test]
fn mixes_in_pairs_transpose_a_matrix() {
    let mut random = Random::default();
    for size in SIZES {
        let count = 64 / size as usize;
        let words: Vec<u64> = (0..count).map(|_| random.word()).collect();
        let mut mixed = words.clone();
        for distance in (0..count.ilog2()).map(|log| 1 << log) {
            for i in (0..count).filter(|i| i & distance == 0) {
                let (size, pair) = (size * distance as u32, [mixed[i], mixed[i + distance]]);
                mixed[i] = MIX_LEFT.result(size, pair[0], pair[1]);
                mixed[i + distance] = MIX_RIGHT.result(size, pair[0], pair[1]);
            }
        }
        let [rows, columns] = [&words, &mixed].map(|words| {
            let rows = words.iter().map(|&word| subwords(size, word));
            rows.collect::<Vec<_>>()
        });
        for (i, j) in (0..count).flat_map(|i| (0..count).map(move |j| (i, j))) {
            assert_eq!(columns[i][j], rows[j][i], "size {size}");
        }
    }
}

/// Bits are moved or left out, none is made: what is done to two bits that meet may
/// be done before or after.
#[test]
fn bits_are_only_moved() {
    holds(|size, first, second| {
        let others = [first.rotate_left(7) ^ second, second.rotate_left(9) ^ first];
        for call in PAIR_CALLS {
            let moved = call.result(size, first, second);
            let other_moved = call.result(size, others[0], others[1]);
            for by in BITWISE {
                let [one, other] = [by(first, others[0]), by(second, others[1])];
                assert_eq!(call.result(size, one, other), by(moved, other_moved));
            }
        }
        let [one, other] = [first, second].map(|word| EXCHANGE.result(size, word, ()));
        assert_eq!(one.count_ones(), first.count_ones());
        for by in BITWISE {
            let exchanged = EXCHANGE.result(size, by(first, second), ());
            assert_eq!(exchanged, by(one, other));
        }
    });
}
