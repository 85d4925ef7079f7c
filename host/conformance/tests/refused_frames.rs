//! Refused frames of request 11 of paper 02: "Any refusal, the lowest number over all four
//! lists, turns the frame back before a channel starts and sets status bit 2 in all four
//! banks", and 15, "the guarantees sum above F, after 14".

use conformance::arbitrary::{frame, good_frame};
use conformance::frame::Frame;
use conformance::programs::{bank, each_form, list_refusal, program, waiting_bank};
use conformance::programs::{BEYOND, LEFT_BEYOND, LONGEST, NO_KIND};
use conformance::samples::Random;
use conformance::unit::{with_status, Bank, Run};
use model::refusal::Answer;
use std::array;
use std::iter::zip;

/// Checks that a frame is refused by this number, with zeros for the rest, and sets status
/// bit 2 in all four banks and changes nothing else; or, if the number is 0, that it is
/// carried out, and that no bank gets that bit.
fn assert_number(number: u8, frame: &Frame) {
    let (answer, after) = frame.called();
    assert_eq!(answer.refusal, number, "{frame:x?}");
    if number != 0 {
        assert_eq!(answer, Answer::refused(number));
        assert_eq!(answer.result, [Run::default(); 4]);
        let expected = frame.banks.map(|bank| with_status(&bank, 0b100));
        assert!(after == expected, "refusal {number}");
    } else {
        let bits = |banks: [Bank; 4]| banks.map(|bank| bank.status & 0b100);
        assert_eq!(bits(after), bits(frame.banks));
    }
}

/// The number that a channel makes its frame be refused by, or 0.
fn number_of(bank: &Bank, list: &[u8]) -> u8 {
    let equal = bank.left as usize == list.len() && bank.list.starts_with(list);
    match list_refusal(list) {
        0 if bank.waiting != 0 && !equal => 14,
        number => number,
    }
}

/// The lowest of some numbers that are not 0; 0 if there is none.
fn lowest(numbers: impl IntoIterator<Item = u8>) -> u8 {
    let numbers = numbers.into_iter().filter(|&number| number != 0);
    numbers.min().unwrap_or(0)
}

/// The number that a frame must answer.
fn expected(frame: &Frame) -> u8 {
    let sum: u64 = frame.guarantees.map(u64::from).iter().sum();
    let above = if sum > frame.cycles.into() { 15 } else { 0 };
    let lists = zip(&frame.banks, &frame.lists).map(|(bank, list)| number_of(bank, list));
    lowest(lists.chain([above]))
}

/// A bank without status bits 0 to 2, so that each would be seen to be set.
fn clear(bank: Bank) -> Bank {
    let status = bank.status & !0b111;
    Bank { status, ..bank }
}

/// A frame of four channels that are carried out: new runs and continued ones.
fn good(random: &mut Random) -> Frame {
    let channels = array::from_fn(|number| {
        let list = program(random, 3);
        let bank = match number % 2 {
            0 => bank(random),
            _ => waiting_bank(random, &list),
        };
        (clear(bank), list)
    });
    Frame::of(channels, [1, 5, 0, 3])
}

/// Channels of every number: the first two are carried out, some have several numbers.
fn channels() -> Vec<(Bank, Vec<u8>)> {
    let mut random = Random::default();
    let good = program(&mut random, 3);
    let both = [&BEYOND[..], &good, &NO_KIND].concat();
    let mut channel = |remainder: Option<&[u8]>, list: &[u8]| {
        let bank = match remainder {
            Some(remainder) => waiting_bank(&mut random, remainder),
            None => bank(&mut random),
        };
        (clear(bank), list.to_vec())
    };
    vec![
        channel(None, &good),
        channel(Some(&good), &good),
        channel(None, &good[..11]),
        channel(Some(&good), &[1; LONGEST + 4]),
        channel(None, &NO_KIND),
        channel(Some(&good), &both),
        channel(Some(&both), &both),
        channel(None, &BEYOND),
        channel(Some(&good), &BEYOND),
        channel(Some(&good), &good[4..]),
        channel(Some(&good), &[]),
        channel(Some(&[]), &good),
    ]
}

/// "the lowest number over all four lists": every four of these channels, with guarantees
/// that sum above the cycles of the frame and that do not.
#[test]
fn every_mix_of_numbers() {
    let channels = channels();
    let numbers: Vec<u8> = channels
        .iter()
        .map(|(bank, list)| number_of(bank, list))
        .collect();
    assert_eq!(numbers, [0, 0, 4, 4, 7, 7, 7, 8, 8, 14, 14, 14]);
    let count = channels.len();
    for all in 0..count.pow(4) {
        let places: [usize; 4] = array::from_fn(|number| all / count.pow(number as u32) % count);
        let mut frame = Frame::of(places.map(|place| channels[place].clone()), [2, 0, 3, 1]);
        let number = lowest(places.map(|place| numbers[place]));
        assert_number(number, &frame);
        frame.cycles -= 1;
        assert_number(lowest([number, 15]), &frame);
    }
}

/// Bit 2 of each byte that a status can be, of all four banks; the other bits stay.
#[test]
fn status_on_every_byte() {
    let mut random = Random::default();
    for held in 0..=255_u8 {
        for (number, spoil) in SPOILS {
            let mut frame = good(&mut random);
            for (turn, bank) in frame.banks.iter_mut().enumerate() {
                bank.status = held.rotate_left(turn as u32);
            }
            spoil(&mut frame);
            assert_number(number, &frame);
        }
    }
}

/// What makes a good frame be refused by this number.
type Spoil = fn(&mut Frame);

const SPOILS: [(u8, Spoil); 5] = [
    (4, |frame| frame.lists[0].push(0)),
    (7, |frame| frame.lists[3][8] = 0),
    (8, |frame| frame.lists[2][..4].copy_from_slice(&BEYOND)),
    (14, |frame| frame.lists[1].truncate(8)),
    (15, |frame| frame.cycles -= 1),
];

/// "turns the frame back before a channel starts": the operation refused is the last of the
/// longest list of some channel, which nothing is guaranteed, and the others could be done.
#[test]
fn the_last_operation_of_each_list() {
    let mut random = Random::default();
    let longest = program(&mut random, 1_023);
    for channel in 0..4 {
        for (number, last) in [(7, NO_KIND), (8, BEYOND)] {
            let mut frame = good(&mut random);
            frame.guarantees = [9; 4];
            frame.guarantees[channel] = 0;
            frame.cycles = u32::MAX;
            frame.lists[channel] = [&longest[..], &last].concat();
            frame.banks[channel].waiting = 0;
            assert_number(number, &frame);
        }
    }
}

/// Each operation of each list, in the place of another: all four lists are checked, whole.
#[test]
fn each_operation_of_each_list() {
    let mut random = Random::default();
    for channel in 0..4 {
        for place in (0..12).step_by(4) {
            for (number, operation) in [(7, NO_KIND), (8, BEYOND)] {
                let mut frame = good(&mut random);
                frame.lists[channel][place..place + 4].copy_from_slice(&operation);
                assert_number(number, &frame);
                let rest = &mut frame.banks[channel];
                rest.list[..12].copy_from_slice(&frame.lists[channel]);
                assert_number(number, &frame);
            }
        }
    }
}

/// "byte for byte": each byte of a remainder, of each channel.
#[test]
fn each_byte_of_each_remainder() {
    let mut random = Random::default();
    let list = each_form();
    let channels = array::from_fn(|_| (waiting_bank(&mut random, &list), list.clone()));
    let good = Frame::of(channels, [40; 4]);
    assert_number(0, &good);
    for channel in 0..4 {
        for place in 0..list.len() {
            for bit in 0..8 {
                let mut frame = good.clone();
                frame.banks[channel].list[place] ^= 1 << bit;
                assert_number(14, &frame);

                let mut frame = good.clone();
                frame.lists[channel][place] ^= 1 << bit;
                assert_number(lowest([list_refusal(&frame.lists[channel]), 14]), &frame);
            }
        }
    }
}

/// Every other length of a remainder, of each channel: the empty list among them.
#[test]
fn each_length_but_the_remainders() {
    let mut random = Random::default();
    let longest = program(&mut random, 1_024);
    for channel in 0..4 {
        let mut frame = good(&mut random);
        frame.banks[channel] = clear(waiting_bank(&mut random, &longest));
        frame.guarantees = [0; 4];
        for left in [0, 4, 8, 2_048, 4_092, 4_096] {
            frame.banks[channel].left = left as u32;
            for length in [0, 4, 8, 12, 2_044, 2_048, 4_088, 4_092, 4_096] {
                frame.lists[channel] = longest[..length].to_vec();
                assert_number(if length == left { 0 } else { 14 }, &frame);
            }
        }
    }
}

/// A bank that says that more is left than it has: no list is that, in any channel.
#[test]
fn no_list_equals_more_than_4096_bytes() {
    let mut random = Random::default();
    let longest = program(&mut random, 1_024);
    for channel in 0..4 {
        let mut frame = good(&mut random);
        frame.guarantees = [0; 4];
        frame.banks[channel] = clear(waiting_bank(&mut random, &longest));
        for left in LEFT_BEYOND {
            frame.banks[channel].left = left;
            for length in [0, 4, 8, 4_092, 4_096] {
                frame.lists[channel] = longest[..length].to_vec();
                assert_number(14, &frame);
            }
        }
    }
}

/// A bank that does not wait is lent any list, whatever it remembers.
#[test]
fn what_does_not_wait_is_a_new_run() {
    let mut random = Random::default();
    for left in LEFT_BEYOND.into_iter().chain([0, 1, 2, 3, 4, 4_095, 4_096]) {
        let mut frame = good(&mut random);
        for bank in &mut frame.banks {
            (bank.waiting, bank.left) = (0, left);
        }
        assert_number(0, &frame);
        frame.lists[3].clear();
        assert_number(0, &frame);
    }
}

/// What is left of a list is refused by 4 if it is not whole operations, as any list: as C
/// alone can make it.
#[test]
fn a_remainder_that_is_not_whole_operations() {
    let mut random = Random::default();
    for left in [1, 2, 3, 5, 11, 4_093, 4_095] {
        let list = program(&mut random, 1_024)[..left].to_vec();
        for channel in 0..4 {
            let mut frame = good(&mut random);
            frame.banks[channel] = clear(waiting_bank(&mut random, &list));
            frame.lists[channel] = list.clone();
            assert_number(4, &frame);
            frame.lists[channel].truncate(left - left % 4);
            assert_number(14, &frame);
        }
    }
}

/// "the guarantees sum above F": any four of these, which sum up to four times 2^32 - 1, and
/// any of these cycles; the sum is the true one, which 32 bits do not hold.
#[test]
fn sums_of_any_guarantees() {
    let mut random = Random::default();
    let mut frame = good(&mut random);
    let figures = [
        0,
        1,
        2,
        1 << 30,
        (1 << 31) - 1,
        1 << 31,
        u32::MAX - 1,
        u32::MAX,
    ];
    let mut refused = 0;
    for all in 0..8_usize.pow(4) {
        frame.guarantees = array::from_fn(|number| figures[all >> (3 * number) & 7]);
        for cycles in figures {
            frame.cycles = cycles;
            let number = expected(&frame);
            assert_number(number, &frame);
            refused += u32::from(number == 15);
        }
    }
    assert!((20_000..32_000).contains(&refused), "{refused}");
}

/// A sum as large as the cycles is carried out, one larger is not.
#[test]
fn sums_at_the_limit() {
    let mut random = Random::default();
    for round in 0..4_000 {
        let mut frame = good(&mut random);
        let shift = round % 31;
        frame.guarantees = [(); 4].map(|()| random.word() as u32 >> 2 >> shift);
        frame.cycles = frame.guarantees.iter().sum();
        assert_number(0, &frame);
        frame.guarantees[round % 4] += 1;
        assert_number(15, &frame);
        frame.cycles += 1;
        assert_number(0, &frame);
    }
    let mut frame = good(&mut random);
    (frame.guarantees, frame.cycles) = ([0; 4], 0);
    assert_number(0, &frame);
}

/// Also where there is nothing to run, in some channels or in all four.
#[test]
fn sums_above_for_empty_lists() {
    let mut random = Random::default();
    for empty in 1..16 {
        let mut frame = good(&mut random);
        for number in (0..4).filter(|number| empty >> number & 1 == 1) {
            frame.lists[number].clear();
            frame.banks[number].left = 0;
        }
        assert_number(0, &frame);
        frame.cycles -= 1;
        assert_number(15, &frame);
    }
}

/// Sums that would not be above the cycles if they were cut to 32 bits.
#[test]
fn sums_that_wrap() {
    let mut random = Random::default();
    let mut frame = good(&mut random);
    for _ in 0..4_000 {
        frame.guarantees = [(); 4].map(|()| random.word() as u32 | 1 << 31);
        let cut = frame.guarantees.into_iter().fold(0, u32::wrapping_add);
        for cycles in [cut, cut.saturating_add(1), u32::MAX] {
            frame.cycles = cycles;
            assert_number(15, &frame);
        }
    }
    frame.guarantees = [u32::MAX; 4];
    assert_number(15, &frame);
    frame.guarantees = [1 << 30; 4];
    (frame.cycles, frame.guarantees[3]) = (u32::MAX, (1 << 30) - 1);
    assert_number(0, &frame);
}

/// A refused frame leaves nothing behind but its bit: the next is as if it had not been.
#[test]
fn nothing_is_lost_by_refused_frames() {
    let mut random = Random::default();
    let spoils: [Spoil; 4] = [
        |frame| frame.lists[2] = NO_KIND.to_vec(),
        |frame| frame.lists[0] = BEYOND.to_vec(),
        |frame| frame.lists[3].push(1),
        |frame| frame.guarantees = [u32::MAX; 4],
    ];
    for _ in 0..300 {
        let frame = good_frame(&mut random);
        let mut tried = frame.clone();
        for spoil in spoils {
            let mut spoilt = tried.clone();
            spoil(&mut spoilt);
            assert_ne!(spoilt.call().refusal, 0);
            tried.banks = spoilt.banks;
        }
        let (answer, banks) = frame.called();
        let (after, others) = tried.called();
        assert_eq!(after, answer);
        assert!(others == banks.map(|bank| with_status(&bank, 0b100)));
    }
}

#[test]
fn arbitrary_frames() {
    let mut random = Random::default();
    let mut numbers = [0; 16];
    for _ in 0..10_000 {
        let frame = frame(&mut random);
        let number = expected(&frame);
        assert_number(number, &frame);
        numbers[usize::from(number)] += 1;
    }
    assert!(
        [0, 4, 7, 8, 14, 15].iter().all(|&n| numbers[n] > 100),
        "{numbers:?}"
    );
}
