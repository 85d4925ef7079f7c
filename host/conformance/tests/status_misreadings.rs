//! Misreadings of request 09 of paper 02, status and interrupt bytes: the library has
//! none of them, and each would be seen, on exactly the bytes that are named.

use conformance::programs::ENDS;
use conformance::unit::{acknowledge, enable, interrupt, operate, read, run, status, write};
use conformance::unit::{status_bit, Bank, End};
use std::fmt::Debug;

/// A bank with these bytes.
fn bank(status: u8, enable: u8) -> Bank {
    Bank {
        status,
        enable,
        ..Bank::default()
    }
}

/// What is made of two bytes.
type OfBytes<A> = fn(u8, u8) -> A;

/// Checks that what the library makes of two bytes is not what the other reading does on
/// exactly these.
fn assert_seen<A: Debug + PartialEq>(
    library: OfBytes<A>,
    misread: OfBytes<A>,
    seen: fn(u8, u8) -> bool,
) {
    for one in 0..=255 {
        for other in 0..=255 {
            let [answer, misread] = [library, misread].map(|made| made(one, other));
            let is_seen = answer != misread;
            assert_eq!(is_seen, seen(one, other), "{one:#x} {other:#x} {answer:?}");
        }
    }
}

/// Checks that of a run on this status byte, which ends so, the other reading leaves
/// another status byte exactly on these.
fn assert_seen_after_a_run(misread: fn(u8, End) -> u8, seen: fn(u8, End) -> bool) {
    for held in 0..=255 {
        for (end, list) in ENDS {
            let mut bank = bank(held, !held);
            assert_eq!(run(&mut bank, list, 0).result.end, end);
            assert_eq!(bank.status, held | status_bit(end));
            let is_seen = bank.status != misread(held, end);
            assert_eq!(is_seen, seen(held, end), "{held:#x} {end:?}");
        }
    }
}

/// "done sets status bit 0, one that ends spent sets bit 1": and not the other way round.
#[test]
fn done_and_spent_are_not_exchanged() {
    assert_seen_after_a_run(
        |held, end| match end {
            End::Done => held | 0b010,
            End::Spent => held | 0b001,
            End::Refused => held | 0b100,
        },
        |held, end| end != End::Refused && held & 0b011 != 0b011,
    );
}

/// "bit 0" is the rightmost, and bits are not counted from 1, nor from the left.
#[test]
fn bits_are_counted_from_0_at_the_right() {
    assert_seen_after_a_run(
        |held, end| held | status_bit(end) << 1,
        |held, end| held & (0b11 * status_bit(end)) != 0b11 * status_bit(end),
    );
    assert_seen_after_a_run(
        |held, end| held | status_bit(end).reverse_bits(),
        |held, end| {
            let both = status_bit(end) | status_bit(end).reverse_bits();
            held & both != both
        },
    );
}

/// A run "sets" a bit: it does not make a byte of it alone, nor clear the bits of other
/// ends, nor those that read zero.
#[test]
fn a_run_leaves_the_other_bits() {
    assert_seen_after_a_run(
        |_, end| status_bit(end),
        |held, end| held & !status_bit(end) != 0,
    );
    assert_seen_after_a_run(
        |held, end| held & !0b111 | status_bit(end),
        |held, end| held & 0b111 & !status_bit(end) != 0,
    );
    assert_seen_after_a_run(
        |held, end| held & 0b111 | status_bit(end),
        |held, _| held > 0b111,
    );
}

/// Nor does it turn a bit over that is one.
#[test]
fn a_run_does_not_turn_a_bit_over() {
    assert_seen_after_a_run(
        |held, end| held ^ status_bit(end),
        |held, end| held & status_bit(end) != 0,
    );
}

/// "a refused run sets bit 2": its registers are untouched, "but for a status bit that a
/// work order sets for refusals".
#[test]
fn a_refused_run_does_not_leave_the_whole_bank() {
    assert_seen_after_a_run(
        |held, end| match end {
            End::Refused => held,
            _ => held | status_bit(end),
        },
        |held, end| end == End::Refused && held & 0b100 == 0,
    );
}

/// The number of a refusal, 4, 7 or 8, is not the status.
#[test]
fn a_status_is_no_number_of_a_refusal() {
    let lists: [(u8, &[u8]); 3] = [(4, &[1]), (7, &[0; 4]), (8, &[1, 16, 0, 0])];
    for (number, list) in lists {
        let mut bank = Bank::default();
        assert_eq!(run(&mut bank, list, u32::MAX).refusal, number);
        assert_eq!(bank.status, 0b100);
        assert_eq!(bank.status == number, number == 4);
    }
}

/// Each end is that of the answer: a run that runs nothing is spent and not refused, one
/// of the empty list done and not spent, and a list is refused before it is spent.
#[test]
fn a_run_of_no_operation_is_done_spent_or_refused() {
    let lists: [(&[u8], u8); 4] = [
        (&[], 0b001),
        (&[1, 0, 0, 0], 0b010),
        (&[0, 0, 0, 0], 0b100),
        (&[1, 0, 0, 0, 0, 0, 0, 0], 0b100),
    ];
    for (list, expected) in lists {
        let mut bank = Bank::default();
        assert_eq!(run(&mut bank, list, 0).result.ran, 0);
        assert_eq!(bank.status, expected);
    }
}

/// A run is spent, and not done as well, though operations of it are done.
#[test]
fn a_spent_run_is_not_done_in_part() {
    let mut bank = Bank::default();
    let answer = run(&mut bank, &[1; 8], 1).result;
    assert_eq!((answer.end, answer.ran), (End::Spent, 1));
    let misread = 0b011;
    assert_eq!((bank.status, bank.status == misread), (0b010, false));
}

/// A bit is set whatever is enabled; if by the enabled ends alone, it would be seen where
/// the bit was zero.
#[test]
fn ends_that_are_not_enabled_are_told_too() {
    for (end, list) in ENDS {
        for enabled in 0..=255 {
            let mut bank = bank(0, enabled);
            run(&mut bank, list, 0);
            assert_eq!(status(&bank), status_bit(end));
            let misread = status_bit(end) & enabled;
            assert_eq!(status(&bank) == misread, enabled & status_bit(end) != 0);
        }
    }
}

/// "single operations, refused or not, touch neither byte": an operation is no run of one
/// operation, and a call that is refused no refused run.
#[test]
fn operations_reads_and_writes_are_no_runs() {
    for held in 0..=255 {
        for (operation, number, misread) in [([1, 0, 0, 0], 15, 0b001), ([0; 4], 16, 0b100)] {
            let mut bank = bank(held, !held);
            let refused = misread == 0b100;
            assert_eq!(operate(&mut bank, operation).refusal != 0, refused);
            assert_eq!(read(&bank, number).refusal != 0, refused);
            assert_eq!(write(&mut bank, number, 7).refusal != 0, refused);
            assert_eq!((bank.status, bank.enable), (held, !held));
            assert_eq!(bank.status == held | misread, held & misread != 0);
        }
    }
}

const STATUS: OfBytes<u8> = |held, enabled| status(&bank(held, enabled));

/// "Status bits 3 to 7 read zero", whatever is held.
#[test]
fn bits_3_to_7_do_not_read_as_they_are_held() {
    assert_seen(STATUS, |held, _| held, |held, _| held > 0b111);
}

/// The status is not of the enabled bits alone.
#[test]
fn bits_that_are_not_enabled_do_not_read_zero() {
    assert_seen(
        STATUS,
        |held, enabled| held & enabled & 0b111,
        |held, enabled| held & !enabled & 0b111 != 0,
    );
}

/// "The board's front panel polls": to read is not to acknowledge.
#[test]
fn reading_does_not_clear() {
    const AGAIN: OfBytes<u8> = |held, enabled| {
        let bank = bank(held, enabled);
        status(&bank);
        interrupt(&bank);
        status(&bank)
    };
    assert_seen(AGAIN, |_, _| 0, |held, _| held & 0b111 != 0);
}

/// The status byte that is held, after this byte is acknowledged.
const ACKNOWLEDGED: OfBytes<u8> = |held, byte| {
    let mut bank = bank(held, 0);
    acknowledge(&mut bank, byte);
    bank.status
};

/// "clears the status bits where that byte has ones": and not where it has zeros.
#[test]
fn zeros_do_not_acknowledge() {
    assert_seen(ACKNOWLEDGED, |held, byte| held & byte, |held, _| held != 0);
}

/// "Writing a byte to acknowledge" does not write it into the status byte, nor its
/// complement.
#[test]
fn what_is_acknowledged_is_not_stored() {
    assert_seen(ACKNOWLEDGED, |_, byte| byte, |held, byte| held | byte != 0);
    assert_seen(
        ACKNOWLEDGED,
        |_, byte| !byte,
        |held, byte| held | byte != 0xFF,
    );
}

/// "clears": a bit that is zero stays zero.
#[test]
fn acknowledging_does_not_turn_bits_over() {
    assert_seen(
        ACKNOWLEDGED,
        |held, byte| held ^ byte,
        |held, byte| byte & !held != 0,
    );
}

/// "where that byte has ones": not all bits, whatever the byte, or whenever it is not 0.
#[test]
fn not_all_is_acknowledged_at_once() {
    assert_seen(ACKNOWLEDGED, |_, _| 0, |held, byte| held & !byte != 0);
    assert_seen(
        ACKNOWLEDGED,
        |held, byte| if byte == 0 { held } else { 0 },
        |held, byte| byte != 0 && held & !byte != 0,
    );
}

/// "the status bits" are all eight: those that read zero are cleared as the others, and
/// only by a one.
#[test]
fn bits_3_to_7_are_acknowledged_as_the_others() {
    assert_seen(
        ACKNOWLEDGED,
        |held, byte| held & !(byte & 0b111),
        |held, byte| held & byte > 0b111,
    );
    assert_seen(
        ACKNOWLEDGED,
        |held, byte| held & !byte & 0b111,
        |held, byte| held & !byte > 0b111,
    );
}

/// The byte marks bits: it is no number of a bit.
#[test]
fn a_bit_is_not_acknowledged_by_its_number() {
    assert_seen(
        ACKNOWLEDGED,
        |held, byte| held & !1_u8.checked_shl(byte.into()).unwrap_or(0),
        |held, byte| {
            let of_that_number = 1_u8.checked_shl(byte.into()).unwrap_or(0);
            held & (byte ^ of_that_number) != 0
        },
    );
}

/// What is acknowledged stays enabled.
#[test]
fn acknowledging_does_not_disable() {
    const ENABLED: OfBytes<u8> = |enabled, byte| {
        let mut bank = bank(0xFF, enabled);
        acknowledge(&mut bank, byte);
        bank.enable
    };
    assert_seen(
        ENABLED,
        |enabled, byte| enabled & !byte,
        |enabled, byte| enabled & byte != 0,
    );
}

/// The enable byte, after this one is written over that one.
const ENABLED: OfBytes<u8> = |before, byte| {
    let mut bank = bank(0xFF, before);
    enable(&mut bank, byte);
    assert_eq!(bank.status, 0xFF);
    bank.enable
};

/// "the host writes the enable byte": it does not add to it, nor turn bits of it over.
#[test]
fn enabling_does_not_keep_what_was_enabled() {
    assert_seen(
        ENABLED,
        |before, byte| before | byte,
        |before, byte| before & !byte != 0,
    );
    assert_seen(
        ENABLED,
        |before, byte| before ^ byte,
        |before, _| before != 0,
    );
}

/// All its bits, though those at 3 and above meet no status bit.
#[test]
fn bits_3_to_7_are_enabled_as_the_others() {
    assert_seen(ENABLED, |_, byte| byte & 0b111, |_, byte| byte > 0b111);
}

/// To enable a bit is not to set it, and to disable one not to acknowledge it.
#[test]
fn enabling_does_not_change_the_status() {
    const HELD: OfBytes<u8> = |held, byte| {
        let mut bank = bank(held, 0);
        enable(&mut bank, byte);
        bank.status
    };
    assert_seen(
        HELD,
        |held, byte| held | byte,
        |held, byte| byte & !held != 0,
    );
    assert_seen(
        HELD,
        |held, byte| held & byte,
        |held, byte| held & !byte != 0,
    );
}

const LINE: OfBytes<bool> = |held, enabled| interrupt(&bank(held, enabled));

/// "high": the line is not low when a bit is one in both.
#[test]
fn the_line_is_not_active_low() {
    assert_seen(
        LINE,
        |held, enabled| held & enabled & 0b111 == 0,
        |_, _| true,
    );
}

/// "some bit is one in both bytes": the same bit. It is not enough that both bytes have
/// ones, nor that either has.
#[test]
fn the_line_is_of_one_bit_in_both_bytes() {
    assert_seen(
        LINE,
        |held, enabled| held & 0b111 != 0 && enabled != 0,
        |held, enabled| held & 0b111 != 0 && enabled != 0 && held & enabled & 0b111 == 0,
    );
    assert_seen(
        LINE,
        |held, enabled| (held | enabled) & 0b111 != 0,
        |held, enabled| (held | enabled) & 0b111 != 0 && held & enabled & 0b111 == 0,
    );
}

/// "some bit", and not every bit that is enabled.
#[test]
fn the_line_does_not_wait_for_every_enabled_bit() {
    assert_seen(
        LINE,
        |held, enabled| held & 0b111 & enabled == enabled,
        |held, enabled| {
            let in_both = held & 0b111 & enabled;
            enabled == 0 || in_both != 0 && in_both != enabled
        },
    );
}

/// A one enables, and does not disable: what is not seen has no status bit, or one that is
/// enabled and one that is not.
#[test]
fn ones_do_not_disable() {
    assert_seen(
        LINE,
        |held, enabled| held & !enabled & 0b111 != 0,
        |held, enabled| {
            let read = held & 0b111;
            read != 0 && (read & enabled == 0 || read & !enabled == 0)
        },
    );
}

/// What is not enabled does not make the line high.
#[test]
fn the_line_is_not_of_the_status_alone() {
    assert_seen(
        LINE,
        |held, _| held & 0b111 != 0,
        |held, enabled| held & 0b111 != 0 && held & enabled & 0b111 == 0,
    );
}

/// "Status bits 3 to 7 read zero" to the line, too.
#[test]
fn the_line_is_not_of_bits_3_to_7() {
    assert_seen(
        LINE,
        |held, enabled| held & enabled != 0,
        |held, enabled| held & enabled != 0 && held & enabled & 0b111 == 0,
    );
}

/// "exactly when": the line follows both bytes at every time. It is not drawn up by a run
/// alone, so that what is enabled after it would come too late, nor kept up until an
/// acknowledgement.
#[test]
fn the_line_follows_both_bytes() {
    for (end, list) in ENDS {
        let mut bank = Bank::default();
        run(&mut bank, list, 0);
        assert!(!interrupt(&bank));
        enable(&mut bank, status_bit(end));
        assert!(interrupt(&bank));
        enable(&mut bank, !status_bit(end));
        assert!(!interrupt(&bank));
        enable(&mut bank, 0xFF);
        assert!(interrupt(&bank));
        acknowledge(&mut bank, status_bit(end));
        assert!(!interrupt(&bank));
    }
}
