//! The examples of document 001, the instruction paper. pex is gather, pdep is
//! scatter, grp is group. Where a figure's numbers are not in its text, the
//! mask is the one the text describes and the word is ours.

use conformance::call::{decode, BUTTERFLY, GATHER, GROUP, SCATTER};
use conformance::controls::stages;
use conformance::samples::for_each;
use conformance::{low_ones, WIDTHS};
use model::gather::Gathered;

/// Bit 7 of an 8-bit word is a, bit 0 is h, as in Fig. 6; '0' is a zero.
fn letters(pattern: &str, word: u64) -> u64 {
    let bit = |letter| match letter {
        b'0' => 0,
        _ => word >> (b'h' - letter) & 1,
    };
    pattern
        .bytes()
        .fold(0, |result, letter| result << 1 | bit(letter))
}

/// Section 3.1, Fig. 6a: "an example pdep operation with mask = 10101101" of
/// abcdefgh gives "d0e0fg0h".
#[test]
fn fig_6_pdep() {
    for word in 0..=0xFF {
        let result = SCATTER.word(8, 0b1010_1101, word);
        assert_eq!(result, letters("d0e0fg0h", word));
    }
}

/// Section 2.2: pdep "is the reverse operation to bit gather".
#[test]
fn fig_6_mask_pex() {
    for word in 0..=0xFF {
        let result = GATHER.word(8, 0b1010_1101, word);
        assert_eq!(result, letters("000acefh", word));
    }
}

/// Section 2.3: grp "gathers to the right the data bits selected by 1s in the
/// mask, and to the left those selected by 0s".
#[test]
fn fig_6_mask_grp() {
    for word in 0..=0xFF {
        let result = GROUP.word(8, 0b1010_1101, word);
        assert_eq!(result, letters("bdgacefh", word));
    }
}

/// Section 3.1, Fig. 6b: "we transfer from the right (R) to the left half (L)
/// the bits whose destination is in L, namely bits d and e", so that L holds
/// "e00d". The other stages pass.
#[test]
fn fig_6_first_stage() {
    let controls = [0b0111, 0b1111, 0b1111, 0, 0, 0];
    for word in 0..=0xFF {
        let result = BUTTERFLY.result(8, controls, word);
        assert_eq!(result, letters("ebcdafgh", word));
    }
}

/// Section 7.1, "using the example of Fig. 6c": stage 1 is LROTC(0^4, 3), the
/// halves of stage 2 are LROTC(0^2, 4) and LROTC(0^2, 1), and the quarters of
/// stage 3 are LROTC(0^1, ..) by 4, 3, 2 and 1. Section 7.1.1: stage i "of the
/// butterfly datapath" is "stage lg(n)-i+1 in the inverse".
#[test]
fn fig_6_mask_decoded() {
    let decoded = decode(8, 0b1010_1101);
    let [stage_1, stage_2, stage_3] = [0b0111, 0b00_01, 0b0_1_0_1];
    assert_eq!(decoded.butterfly, [stage_1, stage_2, stage_3, 0, 0, 0]);
    assert_eq!(decoded.inverse, [stage_3, stage_2, stage_1, 0, 0, 0]);
}

/// Section 3.1, Fig. 6c: the same "without explicit rotations".
#[test]
fn fig_6_pdep_on_the_butterfly() {
    let mask = 0b1010_1101;
    let controls = decode(8, mask).butterfly;
    for word in 0..=0xFF {
        let result = BUTTERFLY.result(8, controls, word);
        assert_eq!(result & mask, letters("d0e0fg0h", word));
    }
}

/// Section 7.1, Fig. 29: LROTC("0000", 3) = "0111".
#[test]
fn fig_29_three_ones_in_the_right_half() {
    for right_half in [0b0111, 0b1011, 0b1101, 0b1110] {
        assert_eq!(decode(8, right_half).butterfly[0], 0b0111);
    }
}

/// Section 7.2: "for the counts of the last butterfly stage, the LROTC
/// circuits can be eliminated as LROTC("0", b) = b for single bit b".
#[test]
fn last_stage_is_the_lowest_bit_of_each_count() {
    for width in WIDTHS {
        for_each(width, 10, |mask, _| {
            let last_stage = decode(width, mask).butterfly[stages(width) - 1];
            for switch in 0..width / 2 {
                let count = (mask & low_ones(2 * switch + 1)).count_ones();
                assert_eq!(last_stage >> switch & 1, count & 1);
            }
        });
    }
}

/// Section 5.1: from "the subword representation to the bitmask
/// representation" of a parallel compare by "a single static pex".
#[test]
fn compare_of_16_bit_subwords_to_bit_mask() {
    let one_bit_each = 0x0001_0001_0001_0001;
    let compared = 0xFFFF_0000_FFFF_FFFF;
    assert_eq!(GATHER.word(64, one_bit_each, compared), 0b1011);
}

/// Section 5.1: pmovmskb, "the most significant bit from each byte".
#[test]
fn pmovmskb() {
    let word = 0x8000_FF7F_0181_00C0;
    assert_eq!(GATHER.word(64, 0x8080_8080_8080_8080, word), 0b1010_0101);
}

/// Section 5.1, Fig. 20: bwpack and bwunpack, "8 bits in parallel from 8
/// bytes" of values 0x00 and 0x01.
#[test]
fn bwpack_and_bwunpack() {
    let low_bits = 0x0101_0101_0101_0101;
    let pixels = 0x0100_0101_0000_0100;
    assert_eq!(GATHER.word(64, low_bits, pixels), 0b1011_0010);
    assert_eq!(SCATTER.word(64, low_bits, 0b1011_0010), pixels);
}

/// Section 5.2, Fig. 21: "the four least significant bits from each 16-bit
/// sample" carry the secret message.
#[test]
fn steganography_in_16_bit_samples() {
    let low_bits = 0x000F_000F_000F_000F;
    let samples = 0x1234_5678_9ABC_DEF0;
    let spread = SCATTER.word(64, low_bits, 0xC0DE);
    assert_eq!(spread, 0x000C_0000_000D_000E);
    let encoded = samples & !low_bits | spread;
    assert_eq!(GATHER.word(64, low_bits, encoded), 0xC0DE);
}

/// Section 5.3, Fig. 22: "a 3x3 neighborhood of pixels from register
/// containing an 8x8 block of pixels", 9 pixels as one index.
#[test]
fn neighbourhoods_of_3_by_3_pixels() {
    let block: u64 = 0x1E5A_C396_0FB4_7D21;
    for corner in (0..6).flat_map(|row| (0..6).map(move |column| 8 * row + column)) {
        let shifted = block >> corner;
        let index = shifted & 7 | (shifted >> 8 & 7) << 3 | (shifted >> 16 & 7) << 6;
        assert_eq!(GATHER.word(64, 0x07_0707 << corner, block), index);
    }
}

/// Section 5.4, Fig. 23: "each set of 6 bits is aligned on a byte boundary and
/// 32 is added to each value"; "Cat" is "0V%T" in uuencode.
#[test]
fn uuencode_of_four_fields() {
    let fields = u32::from_be_bytes(*b"\0Cat").into();
    let text = u32::from_be_bytes(*b"0V%T").into();
    assert_eq!(SCATTER.word(32, 0x3F3F_3F3F, fields) + 0x2020_2020, text);
    assert_eq!(GATHER.word(32, 0x3F3F_3F3F, text - 0x2020_2020), fields);
}

/// Section 5.4: "eight fields are aligned at once", and "a single pex
/// compresses eight 6-bit fields".
#[test]
fn uuencode_of_eight_fields() {
    let mask = 0x3F3F_3F3F_3F3F_3F3F;
    let spaces = 0x2020_2020_2020_2020;
    let fields = u64::from_be_bytes(*b"\0\0CatCat");
    let text = u64::from_be_bytes(*b"0V%T0V%T");
    assert_eq!(SCATTER.word(64, mask, fields) + spaces, text);
    assert_eq!(GATHER.word(64, mask, text - spaces), fields);
}

/// Section 5.5, Fig. 24: "select bits 2 and 1 of each byte of a word"
/// (A: 00, C: 01, G: 11, T: 10), the sequence GCAC.
#[test]
fn nucleotides_gcac() {
    let ascii = u32::from_be_bytes(*b"GCAC").into();
    assert_eq!(GATHER.word(32, 0x0606_0606, ascii), 0b11_01_00_01);
}

/// The same for all four letters in a 64-bit word: "fourfold compression".
#[test]
fn nucleotides_of_a_64_bit_word() {
    let ascii = u64::from_be_bytes(*b"ACGTTGCA");
    let codes = GATHER.word(64, 0x0606_0606_0606_0606, ascii);
    assert_eq!(codes, 0b00_01_11_10_10_11_01_00);
}

/// Section 5.5, Fig. 25: "pdep to distribute eight 6-bit fields on byte
/// boundaries"; a field is three nucleotides.
#[test]
fn codons_to_bytes() {
    let codons: [u8; 8] = [0x3F, 0x01, 0x2A, 0x15, 0x00, 0x38, 0x07, 0x21];
    let packed = codons
        .iter()
        .fold(0, |word, &codon| word << 6 | u64::from(codon));
    let bytes = SCATTER.word(64, 0x3F3F_3F3F_3F3F_3F3F, packed);
    assert_eq!(bytes.to_be_bytes(), codons);
}

/// Section 5.5, Fig. 26: BLASTZ's seed, "a pex operation selecting 24 of 38
/// bits". The text does not say which 12 of the 19 bases; these are ours.
#[test]
fn blastz_seed_of_12_of_19_bases() {
    let seed = "1110100110010101111";
    let bases = "ACGTACGTACGTACGTACG";
    let code = |base| match base {
        'A' => 0b00,
        'C' => 0b01,
        'G' => 0b11,
        _ => 0b10,
    };
    let (mut mask, mut word, mut picked) = (0, 0, 0);
    for (mark, base) in seed.chars().zip(bases.chars()) {
        let marked = mark == '1';
        mask = mask << 2 | if marked { 0b11 } else { 0 };
        word = word << 2 | code(base);
        if marked {
            picked = picked << 2 | code(base);
        }
    }
    let result = GATHER.result(64, mask, word);
    let (count, word) = (24, picked);
    assert_eq!(result, Gathered { count, word });
}

/// Section 5.6, Fig. 27: a "14-bit integer encoded in 2 bytes", 7 data bits
/// and a flag each; here the flag is the byte's top bit.
#[test]
fn integer_of_14_bits_in_2_bytes() {
    assert_eq!(GATHER.word(16, 0x7F7F, 0xD53C), 0x2ABC);
    assert_eq!(SCATTER.word(16, 0x7F7F, 0x2ABC), 0x553C);
}

/// Section 5.7: von Neumann's extractor, "if the bits in the pair differ, the
/// first bit is output", by the mask (X ^ (X << 1)) & 0xAAA..A.
#[test]
fn von_neumann_extractor() {
    for_each(64, 20, |_, x| {
        let mut output = 0;
        for pair in (0..32).rev().map(|i| x >> (2 * i) & 3) {
            if pair == 0b10 || pair == 0b01 {
                output = output << 1 | pair >> 1;
            }
        }
        let mask = (x ^ x << 1) & 0xAAAA_AAAA_AAAA_AAAA;
        assert_eq!(GATHER.word(64, mask, x), output);
    });
}
