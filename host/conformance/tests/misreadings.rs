//! The misreadings that paper 01 warns of ("False splices"), and those of requests
//! 01 to 05 of paper 02, the count of marked bits, the spare bits of packed words,
//! bit planes, the counts below, tiles and subwords: the library has none of them, and
//! each would be seen. Group by a shift of 64 is among the laws and is row 13; those of
//! request 06 are in `pixel_misreadings.rs`, those of request 08 in
//! `group_misreadings.rs`, those of request 09 in `status_misreadings.rs`.

use conformance::call::{decode, BUTTERFLY, GATHER, INVERSE, MASK_CALLS, NETWORKS, SCATTER};
use conformance::call::{CHECK, EXCHANGE, EXCHECK, MIX_LEFT, MIX_RIGHT, PAIR_CALLS};
use conformance::controls::{pass_all, reversed, stages, Controls};
use conformance::packing::{clean_end, PACK, PACKING_CALLS, UNPACK};
use conformance::planes::{Words, FROM_PLANES, TO_PLANES};
use conformance::samples::{any_eight, for_each, Random};
use conformance::tiles::{Movement, TRANSPOSE, TURN_LEFT, TURN_RIGHT};
use conformance::tiles::{MIRROR_COLUMNS, MIRROR_ROWS};
use conformance::{low_ones, SIZES, WIDTHS};
use model::bits::word_of;
use model::decoder::turned_left;
use model::refusal::Answer;

/// Whether the butterfly of width 8 scatters by the mask on these controls.
fn scatters(mask: u64, controls: Controls) -> bool {
    let carried = |word| BUTTERFLY.result(8, controls, word) & mask;
    (0..=0xFF).all(|word| carried(word) == SCATTER.word(8, mask, word))
}

/// Whether the inverse of width 8 gathers by the mask on these controls.
fn gathers(mask: u64, controls: Controls) -> bool {
    let carried = |word| INVERSE.result(8, controls, word & mask);
    (0..=0xFF).all(|word| carried(word) == GATHER.word(8, mask, word))
}

/// "Algorithm 1's printed count loop starts at place 1. The last column needs
/// place 0 too."
#[test]
fn the_last_stage_counts_place_0() {
    for mask in 0..=0xFF {
        let controls = decode(8, mask).butterfly;
        assert!(scatters(mask, controls));
        let [stage_1, stage_2, stage_3, ..] = controls;
        let misread = [stage_1, stage_2, stage_3 & !1, 0, 0, 0];
        assert_eq!(scatters(mask, misread), mask & 1 == 0);
    }
    for width in WIDTHS {
        for_each(width, 10, |mask, _| {
            let last_stage = decode(width, mask).butterfly[stages(width) - 1];
            assert_eq!(u64::from(last_stage) & 1, mask & 1);
        });
    }
}

/// The controls of width 8 if ones were counted in the local half only: c is
/// at most d then, and d zeros turned left c steps are c ones on the right.
fn locally_counted(mask: u64) -> Controls {
    let half = |d: u32, j: u32| low_ones((mask >> (2 * j * d) & low_ones(d)).count_ones());
    let stage = |d| (0..4 / d).fold(0, |stage, j| stage | (half(d, j) << (j * d)) as u32);
    [stage(4), stage(2), stage(1), 0, 0, 0]
}

/// "Counting ones in the local half only, instead of from line 0."
#[test]
fn ones_are_counted_from_bit_0() {
    let controls = decode(8, 0xAD).butterfly;
    let misread = locally_counted(0xAD);
    assert_eq!(controls, [0b0111, 0b0001, 0b0101, 0, 0, 0]);
    assert_eq!(misread, [0b0111, 0b0101, 0b0011, 0, 0, 0]);
    assert!(scatters(0xAD, controls));
    assert!(!scatters(0xAD, misread));
}

/// The controls of width 8 if the bit in the middle of the pairs were counted too.
fn counted_with_the_bit_itself(mask: u64) -> Controls {
    let turned = |d: u32, j: u32| {
        let count = (mask & low_ones(2 * j * d + d + 1)).count_ones() as usize;
        word_of(&turned_left(count, vec![false; d as usize]))
    };
    let stage = |d| (0..4 / d).fold(0, |stage, j| stage | (turned(d, j) << (j * d)) as u32);
    [stage(4), stage(2), stage(1), 0, 0, 0]
}

/// "notes for every line how many ones lie below it" (02, Req 04): not at it.
#[test]
fn a_bit_is_not_among_the_ones_below_it() {
    for mask in 0..=0xFF {
        let controls = decode(8, mask).butterfly;
        let misread = counted_with_the_bit_itself(mask);
        assert_eq!(misread == controls, mask & !1 == 0);
        assert_eq!(scatters(mask, misread), misread == controls);
    }
}

/// "Reading settings of zero as pass. A fresh unit's kind 1 reverses the word."
#[test]
fn zero_is_not_pass() {
    for width in WIDTHS {
        for p in 0..width {
            for network in NETWORKS {
                let top = width - 1;
                assert_eq!(network.result(width, [0; 6], 1 << p), 1 << (top - p));
                assert_eq!(network.result(width, pass_all(width), 1 << p), 1 << p);
            }
        }
    }
}

/// "Reversing the bits inside a column for the inverse, instead of the
/// columns."
#[test]
fn the_inverse_has_reversed_stages_and_not_reversed_bits() {
    for width in WIDTHS {
        for_each(width, 10, |mask, _| {
            let decoded = decode(width, mask);
            assert_eq!(decoded.inverse, reversed(width, decoded.butterfly));
        });
    }
    let controls = decode(8, 0xAD).butterfly;
    let reversed_bits = controls.map(|stage| stage.reverse_bits() >> 28);
    assert!(gathers(0xAD, reversed(8, controls)));
    assert!(!gathers(0xAD, reversed_bits));
    assert!(!gathers(0xAD, reversed(8, reversed_bits)));
}

/// "the count of marked lines", not of the others: at width 8 these are as many
/// for a mask of four ones alone.
#[test]
fn marked_bits_are_counted_and_not_the_others() {
    for mask in 0..=0xFF_u64 {
        for call in MASK_CALLS {
            let count = call.result(8, mask, 0xB6).count;
            let misread = mask.count_zeros() - 56;
            assert_eq!(count == misread, mask.count_ones() == 4);
        }
    }
}

/// "0 to w": a count of 64 needs seven bits. In six, a mask of 64 ones, and no
/// other, would count as one of none.
#[test]
fn a_count_of_64_is_not_0() {
    for width in WIDTHS {
        for mask in [0, 1, low_ones(width - 1), low_ones(width)] {
            for call in MASK_CALLS {
                let count = call.result(width, mask, 0).count;
                let misread = count & 0x3F;
                assert_eq!(count == misread, mask != u64::MAX);
            }
        }
    }
    for call in PACKING_CALLS {
        let count = call.check(u64::MAX, &[5], 0, 1, &mut [7]).result.count;
        assert_eq!((count, count & 0x3F), (64, 0));
    }
}

/// "A refused call shows 0", and not the count of its mask.
#[test]
fn a_refused_call_does_not_count_its_mask() {
    for call in MASK_CALLS {
        let misread = call.result(8, 0xAD, 0).count;
        let answer = call.check(8, 0xAD, 0x100);
        assert_eq!(answer, Answer::refused(2));
        assert_ne!(answer.result.count, misread);
    }
    for call in PACKING_CALLS {
        let misread = call.check(0xFFF, &[1], 0, 1, &mut [7]).result.count;
        let answer = call.check(0xFFF, &[1], 1, 0, &mut [7]);
        assert_eq!(answer, Answer::refused(9));
        assert_ne!(answer.result.count, misread);
    }
}

/// Whether unpack refuses a spare bit of these words, into so many words by a mask
/// of the `count` rightmost bits; nothing else is refused.
fn refuses_spare(count: usize, packed: &[u64], fields: usize) -> bool {
    let mask = low_ones(count as u32);
    let answer = UNPACK.check(mask, packed, 0, fields, &mut vec![7; fields]);
    assert!([0, 11].contains(&answer.refusal));
    answer.refusal == 11
}

/// "the spare bits of the last word that unpack reads", and not those of the next
/// word nor of the last of the list: "Words beyond the last one read stay free."
#[test]
fn spare_bits_are_looked_for_in_the_last_word_read() {
    for count in 1..64 {
        for fields in (1..=9).filter(|fields| count * fields % 64 != 0) {
            let last = count * fields / 64;
            for dirty in 0..last + 4 {
                let mut packed = vec![0; last + 4];
                packed[dirty] = 1 << 63;
                let refuses = refuses_spare(count, &packed, fields);
                assert_eq!(refuses, dirty == last);
                for misread in [last + 1, packed.len() - 1] {
                    let alike = dirty != last && dirty != misread;
                    assert_eq!(refuses == (packed[misread] != 0), alike);
                }
            }
        }
    }
}

/// A last word that the fields fill has no bit to spare. By a shift of 64, which the
/// processor takes for one of 0, all its bits would be spare; were the last word
/// read number k*(b - a)/64, all those of the next.
#[test]
fn a_full_word_has_no_spare_bits() {
    for count in 1..=64_usize {
        for fields in 1..=64 {
            let bits = count * fields;
            let full = bits % 64 == 0;
            let mut packed = vec![u64::MAX; bits.div_ceil(64) + 1];
            clean_end(low_ones(count as u32), &mut packed, 0, fields);
            assert!(!refuses_spare(count, &packed, fields));
            let misread = packed[(bits - 1) / 64] >> (bits % 64) != 0;
            assert_eq!(misread, full);
            let misread = packed[bits / 64] >> (bits % 64) != 0;
            assert_eq!(misread, full);
        }
    }
}

/// All spare bits "must be zero": the lowest one and bit 63 too.
#[test]
fn no_spare_bit_is_left_out() {
    for count in 1..64 {
        for p in 0..64 {
            let refuses = refuses_spare(count, &[1 << p], 1);
            assert_eq!(refuses, p >= count);
            let without_lowest = p > count;
            assert_eq!(refuses == without_lowest, p != count);
            let without_top = p >= count && p < 63;
            assert_eq!(refuses == without_top, p != 63);
        }
    }
}

/// "11, a spare bit is one, after 10": asked first, of the last word read or of
/// the last one there is, it would be the answer to each of these calls.
#[test]
fn a_spare_bit_is_not_asked_for_first() {
    for (number, length, out_length) in [(9, 2, 5), (10, 1, 6), (9, 1, 5), (11, 2, 6)] {
        let packed = vec![u64::MAX; length];
        let misread = packed[length - 1] >> (72 % 64) != 0;
        assert!(misread);
        UNPACK.assert_number(number, 0xFFF, &packed, (0, 6), &mut vec![7; out_length]);
    }
}

/// "buffers and registers are untouched": the end is asked for before the first
/// field is written, and not when it is reached.
#[test]
fn a_spare_bit_is_asked_for_before_a_word_is_written() {
    let mut out = [7; 8];
    let answer = UNPACK.check(0xFFF, &[0x6005_0040_0300_2001, 0x19A], 1, 7, &mut out);
    assert_eq!(answer, Answer::refused(11));
    assert_eq!(out, [7; 8]);
    let mut misread = [7; 8];
    UNPACK.check(0xFFF, &[0x6005_0040_0300_2001, 0x9A], 1, 7, &mut misread);
    assert_eq!(misread, [7, 1, 2, 3, 4, 5, 0x9A6, 7]);
}

/// The end "that unpack reads", and not one that pack reads, or writes over.
#[test]
fn pack_does_not_ask_for_spare_bits() {
    for count in 1..64 {
        let mut out = [u64::MAX; 2];
        assert!(refuses_spare(count, &out, 1));
        let mask = low_ones(count as u32);
        PACK.assert_number(0, mask, &[u64::MAX; 2], (0, 1), &mut out);
        assert_eq!(out, [mask, u64::MAX]);
    }
}

/// The word, and the bit of it, where bit p of byte n stands.
type Place = fn(usize, usize) -> (usize, usize);

/// "byte 0 in the low end of word 0"
const PLACE: Place = |n, p| (n / 8, n % 8 * 8 + p);

/// Every bit of every byte with its place, by this reading.
fn bits(place: Place) -> impl Iterator<Item = (usize, usize, (usize, usize))> {
    let bits = (0..64).flat_map(|n| (0..8).map(move |p| (n, p)));
    bits.map(move |(n, p)| (n, p, place(n, p)))
}

/// The planes by this reading.
fn planes_by(place: Place, words: Words) -> Words {
    let mut planes = [0; 8];
    for (n, p, (word, bit)) in bits(place) {
        planes[p] |= (words[word] >> bit & 1) << n;
    }
    planes
}

/// The way back by it.
fn words_by(place: Place, planes: Words) -> Words {
    let mut words = [0; 8];
    for (n, p, (word, bit)) in bits(place) {
        words[word] |= (planes[p] >> n & 1) << bit;
    }
    words
}

/// Byte 0 is 0x81, byte 10 is 0x03.
const BYTES_0_AND_10: Words = [0x81, 0x03_0000, 0, 0, 0, 0, 0, 0];

/// Their planes.
const PLANES_OF_THEM: Words = [0x401, 0x400, 0, 0, 0, 0, 0, 0x1];

/// Checks that both calls go by the one reading, and would be seen to go by the
/// other.
fn assert_not_read_so(misread: Place) {
    let mut random = Random::default();
    for words in [BYTES_0_AND_10, PLANES_OF_THEM, any_eight(&mut random)] {
        assert_eq!(TO_PLANES.check(words), planes_by(PLACE, words));
        assert_eq!(FROM_PLANES.check(words), words_by(PLACE, words));
    }
    assert_eq!(planes_by(PLACE, BYTES_0_AND_10), PLANES_OF_THEM);
    assert_ne!(planes_by(misread, BYTES_0_AND_10), PLANES_OF_THEM);
    assert_ne!(words_by(misread, PLANES_OF_THEM), BYTES_0_AND_10);
}

/// Byte n is byte n % 8 of word n / 8, and not byte n / 8 of word n % 8.
#[test]
fn words_and_bytes_are_not_exchanged() {
    assert_not_read_so(|n, p| (n % 8, n / 8 * 8 + p));
}

/// "Bit p of byte n", and not bit n % 8 of byte p of word n / 8.
#[test]
fn a_plane_is_not_of_whole_bytes() {
    assert_not_read_so(|n, p| (n / 8, p * 8 + n % 8));
}

/// "byte 0 in the low end", and not in the high end of its word.
#[test]
fn bytes_are_not_counted_from_the_high_end() {
    assert_not_read_so(|n, p| PLACE(n ^ 7, p));
}

/// Document 000 counts the bits of a byte from the high end: its bit0 is plane 7,
/// and not plane 0.
#[test]
fn planes_are_not_in_reversed_order() {
    assert_not_read_so(|n, p| PLACE(n, 7 - p));
}

/// It counts those of a register so, too.
#[test]
fn the_bits_of_a_plane_are_not_counted_from_the_high_end() {
    assert_not_read_so(|n, p| PLACE(63 - n, p));
    assert_not_read_so(|n, p| PLACE(63 - n, 7 - p));
}

/// "The first source's halves, in order, fill the low half of the result": filling
/// the high half, in one of the three stages or in all.
#[test]
fn halves_of_the_result_are_not_exchanged() {
    assert_not_read_so(|n, p| PLACE(n ^ 8, p));
    assert_not_read_so(|n, p| PLACE(n ^ 16, p));
    assert_not_read_so(|n, p| PLACE(n ^ 32, p));
    assert_not_read_so(|n, p| PLACE(n ^ 56, p));
}

/// "which half of every field it keeps": the other one, in one of the three stages.
#[test]
fn halves_of_a_field_are_not_exchanged() {
    assert_not_read_so(|n, p| PLACE(n, p ^ 4));
    assert_not_read_so(|n, p| PLACE(n, p ^ 2));
    assert_not_read_so(|n, p| PLACE(n, p ^ 1));
}

/// The same steps again do not lead back.
#[test]
fn the_way_back_is_not_the_way_there() {
    assert_eq!(FROM_PLANES.check(PLANES_OF_THEM), BYTES_0_AND_10);
    assert_ne!(TO_PLANES.check(PLANES_OF_THEM), BYTES_0_AND_10);
    assert_ne!(FROM_PLANES.check(BYTES_0_AND_10), PLANES_OF_THEM);
}

/// An F that is upright where row 0 is on top and column 7 at the left. No movement
/// leaves it as it is, and no two do the same to it.
const LETTER: u64 = 0x0040_4040_7840_407E;

/// The bit of a tile that is row r, column c.
type Dot = fn(usize, usize) -> usize;

/// "row r is byte r counted from the right", "column c is line c of that byte"
const DOT: Dot = |r, c| 8 * r + c;

/// Where row r, column c goes.
type Rule = fn(usize, usize) -> (usize, usize);

/// The calls with their rules.
const RULES: [(Movement, Rule); 5] = [
    (TRANSPOSE, |r, c| (c, r)),
    (TURN_LEFT, |r, c| (c, 7 - r)),
    (TURN_RIGHT, |r, c| (7 - c, r)),
    (MIRROR_COLUMNS, |r, c| (r, 7 - c)),
    (MIRROR_ROWS, |r, c| (7 - r, c)),
];

/// What a rule makes of the letter, by this reading of rows and columns.
fn moved_by(dot: Dot, rule: Rule) -> u64 {
    let places = (0..8).flat_map(|r| (0..8).map(move |c| (r, c)));
    places.fold(0, |moved, (r, c)| {
        let (row, column) = rule(r, c);
        moved | (LETTER >> dot(r, c) & 1) << dot(row, column)
    })
}

/// Checks that the calls go by the one reading of rows and columns, and that the other
/// would be seen in those of these numbers.
fn assert_not_so_placed(misread: Dot, seen: &[usize]) {
    for (number, (call, rule)) in RULES.into_iter().enumerate() {
        let moved = call.check(LETTER);
        assert_eq!(moved, moved_by(DOT, rule), "{}", call.name);
        let differs = moved != moved_by(misread, rule);
        assert_eq!(differs, seen.contains(&number), "{}", call.name);
    }
}

/// "row 0 on top", and not at the bottom. A mirror is the same from either end.
#[test]
fn row_0_is_not_at_the_bottom() {
    assert_not_so_placed(|r, c| DOT(7 - r, c), &[0, 1, 2]);
}

/// "column 7 at the left", and not at the right.
#[test]
fn column_7_is_not_at_the_right() {
    assert_not_so_placed(|r, c| DOT(r, 7 - c), &[0, 1, 2]);
}

/// Row r is a byte, and not bit r of every byte. To transpose is the same by both.
#[test]
fn rows_are_not_columns() {
    assert_not_so_placed(|r, c| DOT(c, r), &[1, 2, 3, 4]);
}

/// No call goes by the rule of another, such as the left turn by the right one's.
#[test]
fn movements_are_not_exchanged() {
    for (number, (call, _)) in RULES.into_iter().enumerate() {
        for (other, (_, rule)) in RULES.into_iter().enumerate() {
            let alike = call.check(LETTER) == moved_by(DOT, rule);
            assert_eq!(alike, number == other, "{}", call.name);
        }
    }
}

/// "Row r, column c goes to": read as where it comes from, either turn would be the
/// other.
#[test]
fn a_rule_says_where_a_bit_goes() {
    for (number, (call, rule)) in RULES.into_iter().enumerate() {
        let places = (0..8).flat_map(|r| (0..8).map(move |c| (r, c)));
        let misread = places.fold(0, |moved, (r, c)| {
            let (row, column) = rule(r, c);
            moved | (LETTER >> DOT(row, column) & 1) << DOT(r, c)
        });
        let alike = call.check(LETTER) == misread;
        assert_eq!(alike, ![1, 2].contains(&number), "{}", call.name);
    }
}

/// "to row c, column r in transpose": the diagonal that stays is that of row 0, column
/// 0, at the top right, and not the one from the top left.
#[test]
fn transpose_does_not_keep_the_top_left() {
    let top_left = 1 << DOT(0, 7);
    assert_eq!(TRANSPOSE.check(1), 1);
    assert_ne!(TRANSPOSE.check(top_left), top_left);
    assert_ne!(
        TRANSPOSE.check(LETTER),
        moved_by(DOT, |r, c| (7 - c, 7 - r))
    );
}

/// R1 and R2 of document 002's tables: the leftmost letter is that of the highest byte.
const SMALL: u64 = u64::from_be_bytes(*b"abcdefgh");
const CAPITAL: u64 = u64::from_be_bytes(*b"ABCDEFGH");

/// What the calls of two words make of them, and exchange of the first, at size 8.
fn made_of_letters() -> [[u8; 8]; 5] {
    let [checked, exchecked, left, right] = PAIR_CALLS.map(|call| call.result(8, SMALL, CAPITAL));
    let exchanged = EXCHANGE.result(8, SMALL, ());
    [checked, exchecked, left, right, exchanged].map(u64::to_be_bytes)
}

/// Checks that the calls make the letters of the tables, and that by another reading
/// they would make these, each of them another or, in exchange, the same.
fn assert_not_made_so(misread: [&[u8; 8]; 4], exchanged: &[u8; 8]) {
    let made = made_of_letters();
    let tables = [b"aBcDeFgH", b"BaDcFeHg", b"aAcCeEgG", b"bBdDfFhH"];
    for i in 0..4 {
        assert_eq!(made[i], *tables[i]);
        assert_ne!(made[i], *misread[i]);
    }
    assert_eq!(made[4], *b"badcfehg");
    assert_eq!(made[4], *exchanged);
}

/// "Letter a of that paper's tables is the leftmost subword": were it the rightmost,
/// subwords would be counted from the right, 0 here being h.
#[test]
fn letter_a_is_not_the_rightmost() {
    assert_not_made_so(
        [b"AbCdEfGh", b"bAdCfEhG", b"BbDdFfHh", b"AaCcEeGg"],
        b"badcfehg",
    );
}

/// "even" are numbers 0, 2, ..: counted from 1 they would be odd.
#[test]
fn subwords_are_not_counted_from_1() {
    assert_not_made_so(
        [b"AbCdEfGh", b"bAdCfEhG", b"bBdDfFhH", b"aAcCeEgG"],
        b"badcfehg",
    );
}

/// R1 is the first word.
#[test]
fn first_and_second_are_not_exchanged() {
    assert_not_made_so(
        [b"AbCdEfGh", b"bAdCfEhG", b"AaCcEeGg", b"BbDdFfHh"],
        b"badcfehg",
    );
}

/// mixL interleaves "the corresponding "even" elements", and not the left halves, as a
/// merging step of document 000 does; mixR not the right ones.
#[test]
fn mix_does_not_interleave_halves() {
    for (size, mixed) in [(8, b"aAbBcCdD"), (16, b"abABcdCD"), (32, b"abcdABCD")] {
        let left = MIX_LEFT.result(size, SMALL, CAPITAL).to_be_bytes();
        assert_eq!(left == *mixed, size == 32);
    }
    for (size, mixed) in [(8, b"eEfFgGhH"), (16, b"efEFghGH"), (32, b"efghEFGH")] {
        let right = MIX_RIGHT.result(size, SMALL, CAPITAL).to_be_bytes();
        assert_eq!(right == *mixed, size == 32);
    }
}

/// "a check on the two source registers, followed by an exchange": and not the other way
/// round, of either word.
#[test]
fn excheck_does_not_exchange_first() {
    for size in SIZES {
        let [small, capital] = [SMALL, CAPITAL].map(|word| EXCHANGE.result(size, word, ()));
        let misread = CHECK.result(size, small, capital);
        assert_ne!(EXCHECK.result(size, SMALL, CAPITAL), misread);
    }
}

/// "it swaps adjacent subwords in each pair": they are not rotated nor reversed, which
/// is the same for two subwords alone.
#[test]
fn exchange_does_not_rotate_or_reverse() {
    let word = 0x0123_4567_89AB_CDEF_u64;
    for size in SIZES {
        let exchanged = EXCHANGE.result(size, word, ());
        assert_eq!(exchanged == word.rotate_left(size), size == 32);
        let parts = (0..64 / size).map(|i| word >> (size * i) & low_ones(size));
        let reversed = parts.fold(0, |word, part| word << size | part);
        assert_eq!(exchanged == reversed, size == 32);
    }
}

/// The bits of a subword keep their order.
#[test]
fn subwords_are_not_reversed() {
    let exchanged = EXCHANGE.result(8, SMALL, ());
    let misread = exchanged.to_be_bytes().map(u8::reverse_bits);
    assert_ne!(exchanged.to_be_bytes(), misread);
}

/// "1, 2, 4, 8, 16 and 32 bits": in bytes, or as how many subwords a word has, the
/// same number would be another size; as a logarithm 0, 3 and 5 would be sizes.
#[test]
fn a_size_is_in_bits() {
    for call in PAIR_CALLS {
        for size in [1, 2, 4] {
            let in_bytes = call.result(8 * size, SMALL, CAPITAL);
            assert_ne!(call.result(size, SMALL, CAPITAL), in_bytes);
        }
        for size in [2, 4, 8, 16, 32] {
            let as_count = call.result(64 / size, SMALL, CAPITAL);
            let alike = call.result(size, SMALL, CAPITAL) == as_count;
            assert_eq!(alike, size == 8, "{} {size}", call.name);
        }
        for logarithm in [0, 3, 5] {
            let answer = call.check(logarithm, SMALL, CAPITAL);
            assert_eq!(answer, Answer::refused(12));
        }
    }
}

/// A whole word has no other subword beside it: 64 is none of the sizes, though it is
/// a width.
#[test]
fn a_whole_word_is_no_subword() {
    for call in PAIR_CALLS {
        assert_eq!(call.check(64, SMALL, CAPITAL), Answer::refused(12));
    }
    assert_eq!(EXCHANGE.check(64, SMALL, ()), Answer::refused(12));
}

/// "12, another subword size": and not 1, which is another width; 1, 2 and 4 are no
/// widths.
#[test]
fn a_size_is_not_a_width() {
    for size in [1, 2, 4] {
        assert!(!WIDTHS.contains(&size));
        for call in PAIR_CALLS {
            assert_eq!(call.check(size, SMALL, CAPITAL).refusal, 0);
        }
        assert_eq!(EXCHANGE.check(size, SMALL, ()).refusal, 0);
    }
    for size in [0, 12, 128] {
        for call in PAIR_CALLS {
            assert_eq!(call.check(size, SMALL, CAPITAL).refusal, 12);
        }
        assert_eq!(EXCHANGE.check(size, SMALL, ()).refusal, 12);
    }
}
