//! The status byte and the interrupt line after a run, as request 09 of paper 02 has them.

mod support;

use support::{run, Outcome};

/// Runs that end each way, and the first line that each prints. Each that is spent has one
/// operation left. Only the last one sets registers; it is refused, and shows none.
const RUNS: [(&[&str], &str); 8] = [
    (&[""], "done, 0 run, 0 cycles"),
    (&["6,1,2,3", "--budget=3"], "done, 1 run, 3 cycles"),
    (&["6,1,2,3", "--budget=2"], "spent, 0 run, 0 cycles"),
    (&["7,1,2,3,6,1,2,3", "--budget=5"], "spent, 1 run, 3 cycles"),
    (
        &["6,1,2"],
        "\
refused 4: permutation not w long; run list not a multiple of 4 bytes, or above 4,096 bytes",
    ),
    (
        &["0,1,2,3"],
        "refused 7: kind not 1 to 10, or in kind 5 r1 not 1 to 4",
    ),
    (
        &["6,1,2,3,6,1,2,16", "--budget=0"],
        "refused 8: a register number in use above 15",
    ),
    (
        &["6,1,2,16", "--set=0=7", "--set=15=1"],
        "refused 8: a register number in use above 15",
    ),
];

/// The status byte after a run that prints this line first, and the byte in words.
fn status_after(first: &str) -> (u8, &'static str) {
    match first.split([',', ' ']).next() {
        Some("done") => (0b001, "0x1 (done)"),
        Some("spent") => (0b010, "0x2 (spent)"),
        Some("refused") => (0b100, "0x4 (refused)"),
        _ => panic!("{first}"),
    }
}

/// Asserts what each run prints with these options, which write this enable byte.
fn assert_polled(options: &[&str], enable: u8) {
    for (args, first) in RUNS {
        let (status, words) = status_after(first);
        let line = if status & enable == 0 { "low" } else { "high" };
        let lines = format!("{first}\nstatus {words}, interrupt line {line}\n");
        let left = "waits, 1 left to run, 4 bytes\nremainder 6,1,2,3\n";
        let left = if status == 0b010 { left } else { "" };
        let args = [&["run"], args, options].concat();
        let Outcome {
            status,
            output,
            error,
        } = run(&args);
        let expected = if first.starts_with("refused") {
            (2, String::new(), lines)
        } else {
            (0, lines + left, String::new())
        };
        assert_eq!((status, output, error), expected, "{args:?}");
    }
}

#[test]
fn no_bit_is_enabled_by_default() {
    assert_polled(&[], 0);
}

/// Alone, and all but it; without 0x, so that 10 is another byte than in decimal.
#[test]
fn every_bit_of_the_enable_byte() {
    for enable in (0..8).flat_map(|bit| [1 << bit, !(1 << bit)]) {
        assert_polled(&["--enable", &format!("{enable:X}")], enable);
    }
}

#[test]
fn every_form_of_the_enable_byte() {
    for byte in ["5", "05", "0x5", "0x0005"] {
        assert_polled(&["--enable", byte], 5);
    }
    for byte in ["--enable=fe", "--enable=FE", "--enable=0xFe"] {
        assert_polled(&[byte], 0xFE);
    }
}
