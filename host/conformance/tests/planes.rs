//! Request 03 of paper 02: "Bit p of byte n becomes line n of plane p, and the way
//! back is wanted too." Library, wrapper and model agree, and answer what follows
//! from the sentence without either of them.

use conformance::planes::{turned_over, words_of, Words, FROM_PLANES, TO_PLANES};
use conformance::samples::{any_eight, random_eight, Random};
use conformance::BITWISE;
use std::iter::zip;
use tigbayon::{gather, scatter};

/// The lowest bit of each byte of a word.
const LOWEST_BITS: u64 = 0x0101_0101_0101_0101;

/// Each byte number with each bit number.
fn bits() -> impl Iterator<Item = (usize, usize)> {
    (0..64).flat_map(|n| (0..8).map(move |p| (n, p)))
}

/// Words with this byte alone.
fn byte(n: usize, value: u8) -> Words {
    let mut bytes = [0; 64];
    bytes[n] = value;
    words_of(bytes)
}

/// Planes with this bit alone.
fn plane_bit(n: usize, p: usize) -> Words {
    turned_over([0; 8], p, n as u32)
}

/// Checks both calls: these words have these planes.
fn assert_planes(words: Words, planes: Words) {
    assert_eq!(TO_PLANES.check(words), planes, "{words:x?}");
    assert_eq!(FROM_PLANES.check(planes), words, "{planes:x?}");
}

fn complement(words: Words) -> Words {
    words.map(|word| !word)
}

fn combine(one: Words, other: Words, by: fn(u64, u64) -> u64) -> Words {
    let mut combined = one;
    for (word, other) in zip(&mut combined, other) {
        *word = by(*word, other);
    }
    combined
}

fn count_ones(words: Words) -> u32 {
    words.map(u64::count_ones).iter().sum()
}

#[test]
fn each_bit_alone() {
    for (n, p) in bits() {
        assert_planes(byte(n, 1 << p), plane_bit(n, p));
    }
}

#[test]
fn each_bit_alone_missing() {
    for (n, p) in bits() {
        let (words, planes) = (byte(n, 1 << p), plane_bit(n, p));
        assert_planes(complement(words), complement(planes));
    }
}

/// The same by place: bit b of word k, in byte 8*k + b/8.
#[test]
fn each_place_of_each_word() {
    for (k, b) in (0..8).flat_map(|k| (0..64).map(move |b| (k, b))) {
        let words = turned_over([0; 8], k, b as u32);
        assert_planes(words, plane_bit(8 * k + b / 8, b % 8));
    }
}

#[test]
fn every_value_of_every_byte() {
    for n in 0..64 {
        for value in 0..=0xFF {
            let planes = std::array::from_fn(|p| u64::from(value >> p & 1) << n);
            assert_planes(byte(n, value), planes);
        }
    }
}

/// Worked out by hand from the sentence.
#[test]
fn rows() {
    // Byte 0 is 0x81, byte 10 is 0x03.
    assert_planes(
        [0x81, 0x03_0000, 0, 0, 0, 0, 0, 0],
        [1 << 10 | 1, 1 << 10, 0, 0, 0, 0, 0, 1],
    );
    // Byte 7 is 0x01, byte 8 is 0x02, byte 56 is 0x10, byte 63 is 0x80.
    assert_planes(
        [1 << 56, 0x02, 0, 0, 0, 0, 0, 0x80 << 56 | 0x10],
        [1 << 7, 1 << 8, 0, 0, 1 << 56, 0, 0, 1 << 63],
    );
    // Byte k of word k has bit k alone.
    assert_planes(
        [0, 1, 2, 3, 4, 5, 6, 7].map(|k| 1 << (9 * k)),
        [0, 1, 2, 3, 4, 5, 6, 7].map(|k| 1 << (9 * k)),
    );
    // Byte k of each word has bit k alone.
    assert_planes(
        [0x8040_2010_0804_0201; 8],
        [0, 1, 2, 3, 4, 5, 6, 7].map(|k| LOWEST_BITS << k),
    );
    // 0x54, 0x69, 0x67, 0x62, 0x61, 0x79, 0x6F, 0x6E: a column of these bits is a
    // plane's lowest byte, the first in its lowest bit.
    assert_planes(
        [u64::from_le_bytes(*b"Tigbayon"), 0, 0, 0, 0, 0, 0, 0],
        [
            0b0111_0110,
            0b1100_1100,
            0b1100_0101,
            0b1110_0010,
            0b0010_0001,
            0b1111_1110,
            0b1111_1111,
            0,
        ],
    );
}

/// Byte n is n: plane p has digit p of each number.
#[test]
fn counting_bytes() {
    let words = [
        0x0706_0504_0302_0100,
        0x0F0E_0D0C_0B0A_0908,
        0x1716_1514_1312_1110,
        0x1F1E_1D1C_1B1A_1918,
        0x2726_2524_2322_2120,
        0x2F2E_2D2C_2B2A_2928,
        0x3736_3534_3332_3130,
        0x3F3E_3D3C_3B3A_3938,
    ];
    let planes = [
        0xAAAA_AAAA_AAAA_AAAA,
        0xCCCC_CCCC_CCCC_CCCC,
        0xF0F0_F0F0_F0F0_F0F0,
        0xFF00_FF00_FF00_FF00,
        0xFFFF_0000_FFFF_0000,
        0xFFFF_FFFF_0000_0000,
        0,
        0,
    ];
    assert_planes(words, planes);
}

#[test]
fn none_and_all() {
    assert_planes([0; 8], [0; 8]);
    assert_planes([u64::MAX; 8], [u64::MAX; 8]);
}

#[test]
fn one_plane_lit() {
    for p in 0..8 {
        let mut planes = [0; 8];
        planes[p] = u64::MAX;
        assert_planes([LOWEST_BITS << p; 8], planes);
    }
}

#[test]
fn one_byte_lit() {
    for n in 0..64 {
        assert_planes(byte(n, 0xFF), [1 << n; 8]);
    }
}

#[test]
fn one_word_lit() {
    for k in 0..8 {
        let mut words = [0; 8];
        words[k] = u64::MAX;
        assert_planes(words, [0xFF << (8 * k); 8]);
    }
}

#[test]
fn there_and_back_and_the_other_way_round() {
    let mut random = Random::default();
    for _ in 0..30_000 {
        for words in [random_eight(&mut random), any_eight(&mut random)] {
            assert_eq!(FROM_PLANES.check(TO_PLANES.check(words)), words);
            assert_eq!(TO_PLANES.check(FROM_PLANES.check(words)), words);
        }
    }
}

/// A bit comes to its place whatever the others are.
#[test]
fn a_bit_turned_over_turns_over_its_own_alone() {
    let mut random = Random::default();
    for _ in 0..20 {
        let words = any_eight(&mut random);
        let planes = TO_PLANES.check(words);
        for (n, p) in bits() {
            let turned = combine(words, byte(n, 1 << p), |one, other| one ^ other);
            assert_planes(turned, turned_over(planes, p, n as u32));
        }
    }
}

/// Bits are moved, none is made or lost: what is done to two bits that meet may be
/// done before or after.
#[test]
fn bits_are_only_moved() {
    let mut random = Random::default();
    for _ in 0..2_000 {
        let [one, other] = [(); 2].map(|()| any_eight(&mut random));
        for call in [TO_PLANES, FROM_PLANES] {
            let [moved, other_moved] = [one, other].map(|words| call.check(words));
            assert_eq!(count_ones(moved), count_ones(one));
            for by in BITWISE {
                let before = call.check(combine(one, other, by));
                assert_eq!(before, combine(moved, other_moved, by));
            }
        }
    }
}

/// Document 000, Section 5.1: an operation that "gathers one bit per byte from a
/// particular position within each byte". Byte k of plane p is what the library
/// gathers so from word k, and scattering it is the way back.
#[test]
fn a_byte_of_a_plane_is_one_bit_of_each_byte_of_a_word_gathered() {
    let mut random = Random::default();
    for _ in 0..2_000 {
        let words = any_eight(&mut random);
        let planes = TO_PLANES.check(words);
        for (k, word) in words.into_iter().enumerate() {
            let mut scattered = 0;
            for (p, plane) in planes.into_iter().enumerate() {
                let (mask, byte) = (LOWEST_BITS << p, plane >> (8 * k) & 0xFF);
                assert_eq!(gather(64, mask, word).map(|bits| bits.word), Ok(byte));
                scattered |= scatter(64, mask, byte).map_or(0, |bits| bits.word);
            }
            assert_eq!(scattered, word);
        }
    }
}
