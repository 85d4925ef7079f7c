//! The rows of examples of paper 01, with the count that request 01 of paper 02
//! puts beside their answers, and the status that request 09 gives their runs.

use conformance::call::{decode, route, BUTTERFLY, GATHER, GROUP, ROUTE_ONE, SCATTER};
use conformance::packing::PACK;
use conformance::unit::{run, status, Bank, End, Run};
use model::gather::Gathered;
use model::packing::Packed;
use model::refusal::Answer;

#[test]
fn row_1_gather() {
    let (count, word) = (5, 0x1A);
    assert_eq!(GATHER.result(8, 0xAD, 0xB6), Gathered { count, word });
}

#[test]
fn row_2_scatter() {
    let (count, word) = (5, 0xA4);
    assert_eq!(SCATTER.result(8, 0xAD, 0x1A), Gathered { count, word });
}

#[test]
fn row_3_group() {
    let (count, word) = (5, 0x7A);
    assert_eq!(GROUP.result(8, 0xAD, 0xB6), Gathered { count, word });
}

#[test]
fn row_4_decode() {
    assert_eq!(decode(8, 0xAD).butterfly, [0x7, 0x1, 0x5, 0, 0, 0]);
}

#[test]
fn row_5_decode_of_no_mark() {
    let decoded = decode(8, 0);
    assert_eq!(decoded.butterfly, [0; 6]);
    assert_eq!(decoded.inverse, [0; 6]);
}

#[test]
fn row_6_butterfly_on_zeros() {
    assert_eq!(BUTTERFLY.result(8, [0; 6], 0x01), 0x80);
}

#[test]
fn row_7_route_of_the_reversal() {
    let routed = route(8, &[7, 6, 5, 4, 3, 2, 1, 0]);
    assert_eq!(routed.butterfly, [0xF, 0xF, 0xF, 0, 0, 0]);
    assert_eq!(routed.inverse, [0; 6]);
}

/// The permutation of rows 8 and 9.
const BITS_1_AND_4_SWAPPED: [u8; 8] = [0, 4, 2, 3, 1, 5, 6, 7];

#[test]
fn row_8_route_of_a_swap() {
    let routed = route(8, &BITS_1_AND_4_SWAPPED);
    assert_eq!(routed.butterfly, [0xD, 0xF, 0xF, 0, 0, 0]);
    assert_eq!(routed.inverse, [0xB, 0xF, 0xD, 0, 0, 0]);
}

#[test]
fn row_9_either_network_alone() {
    for routing in ROUTE_ONE {
        let answer = routing.check(8, &BITS_1_AND_4_SWAPPED, ());
        assert_eq!(answer, Answer::refused(6));
    }
}

/// The list of rows 10 and 10b, run on their unit with this budget: the answer,
/// register 1 and the status.
fn run_of_row_10(budget: u32) -> (Run, u64, u8) {
    let mut bank = Bank::default();
    bank.general[2] = 0xB6;
    bank.general[3] = 0xAD;
    let answer = run(&mut bank, &[8, 0, 0, 3, 3, 1, 2, 3], budget);
    assert_eq!(answer.refusal, 0);
    (answer.result, bank.general[1], status(&bank))
}

#[test]
fn row_10_run() {
    let (end, ran, cycles) = (End::Done, 2, 3);
    assert_eq!(run_of_row_10(3), (Run { end, ran, cycles }, 0x1A, 1));
}

#[test]
fn row_10b_run_with_less() {
    let (end, ran, cycles) = (End::Spent, 1, 2);
    assert_eq!(run_of_row_10(2), (Run { end, ran, cycles }, 0, 2));
}

#[test]
fn row_11_pack() {
    let mut out = [7; 2];
    let answer = PACK.check(0xFFF, &[1, 2, 3, 4, 5, 0x9A6], 0, 6, &mut out);
    let (count, bits) = (12, 72);
    let (refusal, result) = (0, Packed { count, bits });
    assert_eq!(answer, Answer { refusal, result });
    assert_eq!(out, [0x6005_0040_0300_2001, 0x9A]);
}

/// Demand page: "It takes 12-bit colour out of 16-bit words".
#[test]
fn row_12_gather_of_12_bit_colour() {
    let result = GATHER.result(64, 0x0FFF_0FFF_0FFF_0FFF, 0x0123_0456_0789_0ABC);
    let (count, word) = (48, 0x1234_5678_9ABC);
    assert_eq!(result, Gathered { count, word });
}

#[test]
fn row_13_group_by_all_ones() {
    let (count, word) = (64, 5);
    assert_eq!(GROUP.result(64, u64::MAX, 5), Gathered { count, word });
}
