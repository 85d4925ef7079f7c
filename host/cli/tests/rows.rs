//! The rows of examples of paper 01, with the count that request 01 of paper 02
//! puts beside their answers.

mod support;

use support::{run_line, Outcome};

/// Asserts that the call of this line is carried out and prints these lines.
fn assert_prints(line: &str, lines: &[&str]) {
    let Outcome {
        status,
        output,
        error,
    } = run_line(line);
    assert_eq!((status, error.as_str()), (0, ""), "{line}");
    assert_eq!(Vec::from_iter(output.lines()), lines, "{line}");
}

#[test]
fn rows_1_to_3_by_a_mask() {
    assert_prints("gather 8 0xAD 0xB6", &["0x1A 5"]);
    assert_prints("scatter 8 0xAD 0x1A", &["0xA4 5"]);
    assert_prints("group 8 0xAD 0xB6", &["0x7A 5"]);
}

#[test]
fn no_marks_count_0_and_all_count_the_width() {
    assert_prints("gather 8 0 0xB6", &["0x0 0"]);
    assert_prints("scatter 16 FFFF 0xB6", &["0xB6 16"]);
    assert_prints("group 32 FFFFFFFF 0xB6", &["0xB6 32"]);
}

#[test]
fn rows_4_and_5_decode() {
    let lines = ["butterfly 0x7,0x1,0x5", "inverse   0x5,0x1,0x7"];
    assert_prints("decode 8 0xAD", &lines);
    let lines = ["butterfly 0x0,0x0,0x0", "inverse   0x0,0x0,0x0"];
    assert_prints("decode 8 0", &lines);
}

#[test]
fn row_6_butterfly_on_zeros() {
    for stages in ["0", "0,0,0", "0,0,0,0,0,0"] {
        assert_prints(&format!("butterfly 8 {stages} 0x01"), &["0x80"]);
    }
    assert_prints("inverse 8 0 0x01", &["0x80"]);
}

#[test]
fn rows_7_and_8_route() {
    let lines = ["butterfly 0xF,0xF,0xF", "inverse   0x0,0x0,0x0"];
    assert_prints("route 8 7,6,5,4,3,2,1,0", &lines);
    let lines = ["butterfly 0xD,0xF,0xF", "inverse   0xB,0xF,0xD"];
    assert_prints("route 8 0,4,2,3,1,5,6,7", &lines);
}

#[test]
fn row_9_either_network_alone() {
    for network in ["--butterfly", "--inverse"] {
        let outcome = run_line(&format!("route 8 0,4,2,3,1,5,6,7 {network}"));
        let refused = Outcome {
            status: 2,
            output: String::new(),
            error: "refused 6: permutation not realised by the one network named\n".into(),
        };
        assert_eq!(outcome, refused);
    }
}

/// The lines that the run of rows 10 and 10b prints with this budget: how it ended, the
/// status byte with the interrupt line, the general registers, and what is left if it
/// waits.
fn run_of_row_10(budget: u32) -> Vec<String> {
    let list = "8,0,0,3,3,1,2,3";
    let line = format!("run {list} --budget {budget} --set 2=0xB6 --set 3=0xAD");
    let outcome = run_line(&line);
    assert_eq!((outcome.status, outcome.error.as_str()), (0, ""));
    let lines = outcome.output.lines().map(String::from);
    lines.filter(|line| !line.starts_with("ib")).collect()
}

#[test]
fn rows_10_and_10b_run() {
    let set = ["register 2 = 0xB6", "register 3 = 0xAD"];
    let polled = "status 0x1 (done), interrupt line low";
    let result = "register 1 = 0x1A";
    let lines = ["done, 2 run, 3 cycles", polled, result, set[0], set[1]];
    assert_eq!(run_of_row_10(3), lines);
    let polled = "status 0x2 (spent), interrupt line low";
    let left = ["waits, 1 left to run, 4 bytes", "remainder 3,1,2,3"];
    let lines = [
        "spent, 1 run, 2 cycles",
        polled,
        set[0],
        set[1],
        left[0],
        left[1],
    ];
    assert_eq!(run_of_row_10(2), lines);
}

#[test]
fn row_11_pack_and_back() {
    let (counts, packed) = ("72 bits, count 12", "0x6005004003002001,0x9A");
    assert_prints("pack 0xFFF 1,2,3,4,5,0x9A6 0 6", &[counts, packed]);
    let words = "0x1,0x2,0x3,0x4,0x5,0x9A6";
    assert_prints(&format!("unpack 0xFFF {packed} 0 6"), &[counts, words]);
}

#[test]
fn rows_12_and_13_at_width_64() {
    let line = "gather 64 0x0FFF0FFF0FFF0FFF 0x0123045607890ABC";
    assert_prints(line, &["0x123456789ABC 48"]);
    assert_prints("group 64 FFFFFFFFFFFFFFFF 5", &["0x5 64"]);
}

#[test]
fn controls_can_be_given_again() {
    assert_prints("butterfly 8 0xD,0xF,0xF 0x10", &["0x10"]);
    assert_prints("inverse 8 0xB,0xF,0xD 0x10", &["0x2"]);
}

#[test]
fn words_that_are_lent() {
    let (call, counts) = ("pack 0xFFF 1,2,3,4,5,0x9A6", "24 bits, count 12");
    assert_prints(&format!("{call} 0 2 --out 7,7"), &[counts, "0x2001,0x7"]);
    assert_prints(&format!("{call} 0 2 --length 2"), &[counts, "0x2001,0x0"]);
    assert_prints(&format!("{call} 3 3"), &["0 bits, count 12"]);
    let call = "unpack 0xFFF 0x2001";
    let lines = [counts, "0x9,0x1,0x2,0x9"];
    assert_prints(&format!("{call} 1 3 --out 9,9,9,9"), &lines);
    assert_prints(&format!("{call} 1 3"), &[counts, "0x0,0x1,0x2"]);
    let lines = ["0 bits, count 0", "0x9,0x9,0x0,0x0"];
    assert_prints("unpack 0 0 2 4 --out 9,9,9,9", &lines);
}

#[test]
fn operations_in_one_argument_or_many() {
    let lines = [
        "done, 1 run, 1 cycles",
        "status 0x1 (done), interrupt line low",
        "register 1 = 0x8000000000000000",
        "register 2 = 0x1",
    ];
    for operations in ["1,1,2,0", "1 1 2 0", "1,1 2,0"] {
        assert_prints(&format!("run {operations} --set 2=1"), &lines);
    }
    assert_prints("run --set=2=1 1,1,2,0", &lines);
}
