//! Runs that wait and are continued, as request 10 of paper 02 has them.

mod support;

use support::{assert_unread, list, prints, run, Outcome};
use tigbayon::Refusal;

/// An operation of each kind; their cycles are five times 1, then 3, 3, 2, 2, 3.
const KINDS: &str = "\
    1,4,2,0,2,5,2,0,3,6,2,3,4,7,2,3,5,1,2,3,6,8,2,3,7,9,2,3,8,0,0,3,9,0,0,3,10,10,2,3";

/// Budgets in turn, and how many operations of [`KINDS`] and cycles each is enough for.
const TURNS: [(u32, usize, u32); 8] = [
    (3, 3, 3),
    (4, 2, 2),
    (2, 0, 0),
    (3, 1, 3),
    (5, 2, 5),
    (4, 1, 2),
    (2, 0, 0),
    (3, 1, 3),
];

/// What [`KINDS`] leave of 0xB6 in register 2 and 0xAD in register 3; register 7 is zero.
const LEFT: [&str; 14] = [
    "register 2 = 0xB6",
    "register 3 = 0xAD",
    "register 4 = 0x6D00000000000000",
    "register 5 = 0x6D00000000000000",
    "register 6 = 0x2500000000000000",
    "register 8 = 0x1A",
    "register 9 = 0x8C",
    "register 10 = 0x7A",
    "b1 = 0x1F001F0000001F",
    "b2 = 0xEEEEEEE71F1F1F1F",
    "b3 = 0xFFFFFFF555555551",
    "ib1 = 0x55555551FFFFFFF5",
    "ib2 = 0x1F1F1F1FEEEEEEE7",
    "ib3 = 0x1F001F001F",
];

/// The run of rows 10 and 10b.
const ROW_10: &str = "8,0,0,3,3,1,2,3";

/// Three reversals of register 2, of a cycle each, into 1, 3 and 4.
const REVERSALS: &str = "1,1,2,0,1,3,2,0,1,4,2,0";

/// The lines that a run prints, by what they tell.
#[derive(Debug, Default, PartialEq, Eq)]
struct Printed {
    turns: Vec<String>,
    status: String,
    registers: Vec<String>,
    last: Vec<String>,
}

impl Printed {
    fn read(printed: &str) -> Self {
        let mut lines = printed.lines().map(String::from);
        let mut read = Printed::default();
        for line in lines.by_ref() {
            if line.starts_with("status ") {
                read.status = line;
                break;
            }
            read.turns.push(line);
        }
        (read.registers, read.last) = lines.partition(|line| line.contains(" = "));
        read
    }

    /// What the run of these operations with these budgets prints, registers 2 and 3 set
    /// as in row 10.
    fn of(operations: &str, budgets: &[u32]) -> Self {
        let budgets = numbers(budgets);
        let set = ["--set=2=0xB6", "--set=3=0xAD"];
        Printed::by(&[operations, "--budget", &budgets, set[0], set[1]])
    }

    fn by(args: &[&str]) -> Self {
        Printed::read(&prints(&[&["run"], args].concat()))
    }
}

/// Numbers as a list.
fn numbers(numbers: &[u32]) -> String {
    Vec::from_iter(numbers.iter().map(u32::to_string)).join(",")
}

/// What is printed of a run that waits with these operations.
fn waits(remainder: &str) -> [String; 2] {
    let bytes = remainder.split(',').count();
    let waits = format!("waits, {} left to run, {bytes} bytes", bytes / 4);
    [waits, format!("remainder {remainder}")]
}

/// The operations of a list from this one on.
fn operations_from(list: &str, first: usize) -> String {
    Vec::from_iter(list.split(',').skip(4 * first)).join(",")
}

/// The operations of a list before this one.
fn operations_before(list: &str, end: usize) -> String {
    Vec::from_iter(list.split(',').take(4 * end)).join(",")
}

#[test]
fn every_turn_is_printed_and_what_is_left() {
    let mut ran = 0;
    for count in 1..=TURNS.len() {
        let turns = &TURNS[..count];
        let budgets = turns.iter().map(|(budget, ..)| *budget);
        let printed = Printed::of(KINDS, &Vec::from_iter(budgets));
        ran += turns[count - 1].1;
        let is_done = count == TURNS.len();
        let answers = (1..).zip(turns).map(|(number, (_, ran, cycles))| {
            let end = if number == 8 { "done" } else { "spent" };
            let numbered = if count > 1 {
                format!("turn {number}: ")
            } else {
                String::new()
            };
            format!("{numbered}{end}, {ran} run, {cycles} cycles")
        });
        assert_eq!(printed.turns, Vec::from_iter(answers));
        let status = if is_done {
            "0x3 (done, spent)"
        } else {
            "0x2 (spent)"
        };
        assert_eq!(
            printed.status,
            format!("status {status}, interrupt line low")
        );
        let ample = Printed::of(&operations_before(KINDS, ran), &[u32::MAX]);
        assert_eq!(printed.registers, ample.registers);
        if is_done {
            assert!(printed.last.is_empty(), "{:?}", printed.last);
        } else {
            assert_eq!(printed.last, waits(&operations_from(KINDS, ran)));
        }
    }
    assert_eq!(ran, 10);
}

/// With every budget that is enough for the costliest operation, again and again.
#[test]
fn continued_until_done_as_one_run() {
    let ample = Printed::of(KINDS, &[18]);
    assert_eq!(ample.turns, ["done, 10 run, 18 cycles"]);
    assert_eq!(ample.registers, LEFT);
    for budget in 3..18 {
        let printed = Printed::of(KINDS, &[budget; 10]);
        assert_eq!(printed.registers, LEFT, "{budget}");
        assert_eq!(
            printed.status,
            "status 0x3 (done, spent), interrupt line low"
        );
        let (last, others) = printed.turns.split_last().unwrap();
        assert!(last.contains(": done, "), "{last}");
        assert!(others.iter().all(|turn| turn.contains(": spent, ")));
    }
}

#[test]
fn row_10b_continued_is_row_10() {
    let row = Printed::of(ROW_10, &[3]);
    assert_eq!(row.turns, ["done, 2 run, 3 cycles"]);
    assert_eq!(row.registers[0], "register 1 = 0x1A");
    let [first, second] = ["spent, 1 run, 2 cycles", "done, 1 run, 1 cycles"];
    let none = "spent, 0 run, 0 cycles";
    let cases: [(&[u32], &[&str]); 7] = [
        (&[2, 1], &[first, second]),
        (&[2, u32::MAX], &[first, second]),
        (&[2, 0, 0, 1], &[first, none, none, second]),
        (&[0, 2, 1], &[none, first, second]),
        (&[1, 3], &[none, "done, 2 run, 3 cycles"]),
        (&[1, 1, 2, 0, 2], &[none, none, first, none, second]),
        (&[0, 4294967295], &[none, "done, 2 run, 3 cycles"]),
    ];
    for (budgets, answers) in cases {
        let printed = Printed::of(ROW_10, budgets);
        let numbered = (1..).zip(answers);
        let numbered = numbered.map(|(number, answer)| format!("turn {number}: {answer}"));
        assert_eq!(printed.turns, Vec::from_iter(numbered));
        assert_eq!(
            printed.status,
            "status 0x3 (done, spent), interrupt line low"
        );
        assert_eq!(printed.registers, row.registers, "{budgets:?}");
        assert!(printed.last.is_empty(), "{:?}", printed.last);
    }
}

#[test]
fn every_form_of_several_budgets() {
    let expected = Printed::of(ROW_10, &[2, 1]);
    for budgets in ["2 1", "2, 1", " 2 ,1 ", "02,01"] {
        let set = ["--set=2=0xB6", "--set=3=0xAD"];
        let printed = Printed::by(&[ROW_10, "--budget", budgets, set[0], set[1]]);
        assert_eq!(printed, expected, "{budgets:?}");
    }
}

/// The last write to a register before a continuation counts, of any continuation's.
#[test]
fn writes_between_turns() {
    let cases: [(&[&str], [&str; 4]); 7] = [
        (&[], ["8", "1", "8", "8"]),
        (&["1:2=2"], ["8", "2", "4", "4"]),
        (&["2:2=2"], ["8", "2", "8", "4"]),
        (&["1:2=2", "2:2=4"], ["8", "4", "4", "2"]),
        (&["2:2=4", "1:2=2"], ["8", "4", "4", "2"]),
        (&["1:2=2", "1:2=8"], ["8", "8", "1", "1"]),
        (&["1:2=8", "2:2=1", "1:2=2", "2:2=4"], ["8", "4", "4", "2"]),
    ];
    for (writes, [one, two, three, four]) in cases {
        let writes = Vec::from_iter(writes.iter().map(|write| format!("--write={write}")));
        let writes = writes.iter().map(String::as_str);
        let args = [REVERSALS, "--budget=1,1,1", "--set=2=1"];
        let printed = Printed::by(&Vec::from_iter(args.into_iter().chain(writes)));
        let expected = [
            format!("register 1 = 0x{one}000000000000000"),
            format!("register 2 = 0x{two}"),
            format!("register 3 = 0x{three}000000000000000"),
            format!("register 4 = 0x{four}000000000000000"),
        ];
        assert_eq!(printed.registers, expected);
        let answers = [
            "turn 1: spent, 1 run, 1 cycles",
            "turn 2: spent, 1 run, 1 cycles",
            "turn 3: done, 1 run, 1 cycles",
        ];
        assert_eq!(printed.turns, answers);
        assert!(printed.last.is_empty(), "{:?}", printed.last);
    }
}

/// A result that is written over stays so; one that is written before it is made does not.
#[test]
fn writes_to_any_register() {
    let writes = ["--write", "1:0=0xFFFFFFFFFFFFFFFF", "--write=1:015=00fe"];
    let results = ["--write=1:1=7", "--write=1:3=7", "--write", "2:4=0"];
    let args = [
        &[REVERSALS, "--budget=1,1,0", "--set=2=1"],
        &writes[..],
        &results,
    ]
    .concat();
    let printed = Printed::by(&args);
    let expected = [
        "register 0 = 0xFFFFFFFFFFFFFFFF",
        "register 1 = 0x7",
        "register 2 = 0x1",
        "register 3 = 0x8000000000000000",
        "register 15 = 0xFE",
    ];
    assert_eq!(printed.registers, expected);
    assert_eq!(printed.last, waits("1,4,2,0"));
    assert_eq!(printed.status, "status 0x2 (spent), interrupt line low");
}

#[test]
fn the_interrupt_line_over_turns() {
    for (enable, waiting, done) in [
        ("0", "low", "low"),
        ("1", "low", "high"),
        ("2", "high", "high"),
        ("4", "low", "low"),
        ("F8", "low", "low"),
    ] {
        for (budgets, status, line) in [
            ("1,1", "0x2 (spent)", waiting),
            ("1,1,1", "0x3 (done, spent)", done),
            (
                "3,1",
                "0x1 (done)",
                if enable == "2" { "low" } else { done },
            ),
        ] {
            let printed = Printed::by(&[REVERSALS, "--enable", enable, "--budget", budgets]);
            assert_eq!(
                printed.status,
                format!("status {status}, interrupt line {line}")
            );
        }
    }
}

/// It is not an error that a run is done early.
#[test]
fn budgets_not_used() {
    let cases: [(&str, &[u32], usize, &str); 6] = [
        (ROW_10, &[3, 7], 1, "7"),
        (ROW_10, &[3, 0, 4294967295], 1, "0,4294967295"),
        (ROW_10, &[2, 1, 1], 2, "1"),
        (ROW_10, &[0, 0, 9, 8, 7, 6], 3, "8,7,6"),
        ("", &[0, 0], 1, "0"),
        ("", &[5, 6, 7], 1, "6,7"),
    ];
    for (operations, budgets, turns, unused) in cases {
        let printed = Printed::of(operations, budgets);
        assert_eq!(printed.turns.len(), turns);
        assert!(printed.turns[turns - 1].starts_with(&format!("turn {turns}: done, ")));
        let line = format!("budgets not used, the run was done in turn {turns}: {unused}");
        assert_eq!(printed.last, [line]);
        let ample = Printed::of(operations, &[u32::MAX]);
        assert_eq!(printed.registers, ample.registers);
    }
}

/// Nor is a write that then has no continuation to come before, of whatever register.
#[test]
fn writes_not_made() {
    let args = |options: &[&'static str]| [&[REVERSALS, "--set=2=1"], options].concat();
    let ample = Printed::by(&args(&[]));
    let printed = Printed::by(&args(&["--budget=3,1", "--write=1:2=2", "--write=1:16=1"]));
    assert_eq!(printed.turns, ["turn 1: done, 3 run, 3 cycles"]);
    let lines = [
        "budgets not used, the run was done in turn 1: 1",
        "writes not made, the run was done in turn 1: 1:2=2,1:16=1",
    ];
    assert_eq!(printed.last, lines);
    assert_eq!(printed.registers, ample.registers);

    let writes = ["--write=3:2=8", "--write=1:5=0x5", "--write=2:6=6"];
    let printed = Printed::by(&args(&[&["--budget=1,2,1,1"], &writes[..]].concat()));
    assert_eq!(printed.turns.len(), 2);
    let lines = [
        "budgets not used, the run was done in turn 2: 1,1",
        "writes not made, the run was done in turn 2: 3:2=8,2:6=6",
    ];
    assert_eq!(printed.last, lines);
    let written = ["register 5 = 0x5".to_string()];
    assert_eq!(printed.registers, [&ample.registers[..], &written].concat());
}

/// As a register to set is; but turns were taken before, and are told.
#[test]
fn a_write_that_is_refused() {
    for (write, count) in [("1:16=1", 1), ("2:255=0", 2), ("2:16=0x5", 2)] {
        let args = [
            "run",
            REVERSALS,
            "--budget=1,0,2",
            "--set=2=1",
            "--write=1:9=9",
        ];
        let Outcome {
            status,
            output,
            error,
        } = run(&[&args[..], &["--write", write, "--write=2:3=7"]].concat());
        assert_eq!((status, output.as_str()), (2, ""), "{write}");
        let (first, below) = error.split_once('\n').unwrap();
        let said = "refused 8: a register number in use above 15";
        assert_eq!(first, format!("{said} (--write {write})"));
        let printed = Printed::read(below);
        let turns = [
            "turn 1: spent, 1 run, 1 cycles",
            "turn 2: spent, 0 run, 0 cycles",
        ];
        assert_eq!(printed.turns, turns[..count]);
        assert_eq!(printed.status, "status 0x2 (spent), interrupt line low");
        let registers = [
            "register 1 = 0x8000000000000000",
            "register 2 = 0x1",
            "register 9 = 0x9",
        ];
        assert_eq!(printed.registers, registers);
        assert_eq!(printed.last, waits("1,3,2,0,1,4,2,0"));
        assert!(error.ends_with("0\n") && !error.ends_with("\n\n"));
    }
}

/// The whole list is checked at first, whatever the budgets, and no turn is taken.
#[test]
fn a_run_that_is_refused() {
    for (operations, refusal) in [
        ("1,1,2,0,1,3,2", Refusal::Length),
        ("1,1,2,0,0,3,2,0", Refusal::Kind),
        ("1,1,2,0,1,3,16,0", Refusal::Register),
    ] {
        for budgets in ["0,0", "1,1", "2,1,1"] {
            let options = ["--budget", budgets, "--set=2=1", "--write=1:2=2"];
            let Outcome {
                status,
                output,
                error,
            } = run(&[&["run", operations], &options[..]].concat());
            assert_eq!((status, output.as_str()), (2, ""), "{operations}");
            let lines = Vec::from_iter(error.lines());
            assert!(lines[0].starts_with(&format!("refused {}: ", refusal.number())));
            assert_eq!(lines[1..], ["status 0x4 (refused), interrupt line low"]);
        }
    }
}

#[test]
fn the_longest_remainder() {
    let longest = list(&[1, 1, 2, 0].repeat(1_024));
    for (budgets, ran) in [(&[0][..], 0), (&[1], 1), (&[1000, 0, 23], 1_023)] {
        let printed = Printed::of(&longest, budgets);
        assert_eq!(printed.last, waits(&operations_from(&longest, ran)));
    }
    let printed = Printed::of(&longest, &[1]);
    assert_eq!(printed.last[0], "waits, 1023 left to run, 4092 bytes");
    let printed = Printed::of(&longest, &[0, 512, 511, 1]);
    assert_eq!(printed.turns[3], "turn 4: done, 1 run, 1 cycles");
    assert!(printed.last.is_empty(), "{:?}", printed.last);
}

/// With the registers that were left, they make a new run.
#[test]
fn the_operations_left_can_be_given_again() {
    let list = operations_before(KINDS, 4);
    let ample = Printed::of(&list, &[4]);
    for budget in 0..4 {
        let waiting = Printed::of(&list, &[budget]);
        let remainder = waiting.last[1].strip_prefix("remainder ").unwrap();
        let registers = waiting.registers.iter().map(|line| {
            let register = line.strip_prefix("register ").unwrap();
            format!("--set={}", register.replace(" = ", "="))
        });
        let registers = Vec::from_iter(registers);
        let registers = registers.iter().map(String::as_str);
        let args = Vec::from_iter([remainder].into_iter().chain(registers));
        assert_eq!(Printed::by(&args).registers, ample.registers);
    }
}

/// Also where the run, or a register to set, would be refused.
#[test]
fn several_budgets_that_cannot_be_read() {
    let decimal = "expected a decimal number from 0 to 4294967295";
    for operations in ["", "0,1,2,3"] {
        for (text, number, entry) in [
            ("1,", 1, ""),
            (",1", 0, ""),
            (",", 0, ""),
            ("1,,2", 1, ""),
            ("1,x", 1, "x"),
            ("0x1,2", 0, "0x1"),
            ("1,2,4294967296", 2, "4294967296"),
            ("1 -2", 1, "-2"),
        ] {
            let problem = format!("run: entry {number} of --budget is {entry:?}, {decimal}");
            let args = ["run", operations, "--budget", text, "--set", "16=1"];
            assert_unread(&args, &problem);
        }
        for text in ["", " ", "x", "1;2", "1:2"] {
            let problem = format!("run: --budget is {text:?}, {decimal}");
            assert_unread(&["run", operations, "--budget", text], &problem);
        }
        let args = ["run", operations, "--budget", "1", "--budget", "2"];
        assert_unread(&args, "--budget is given twice");
        assert_unread(&["run", operations, "--budget"], "--budget needs N,N,..");
    }
}

/// Likewise, and where an earlier write can be read.
#[test]
fn writes_that_cannot_be_read() {
    let written = |write: &str, problem: &str| {
        for operations in ["", "0,1,2,3", REVERSALS] {
            let args = ["run", operations, "--budget", "1,1", "--set", "16=1"];
            let writes = ["--write", "1:16=1", "--write", write];
            assert_unread(&[&args[..], &writes].concat(), problem);
        }
    };
    for text in ["", "1", "2=1", "1:2", "1:", ":", "1=2:3", "1,2=3", "1:2:3"] {
        written(text, &format!("--write is {text:?}, expected K:R=WORD"));
    }
    for (text, part, said) in [
        (":2=1", "K", ""),
        ("x:2=1", "K", "x"),
        ("-1:2=1", "K", "-1"),
        ("0x1:2=1", "K", "0x1"),
        ("18446744073709551616:2=1", "K", "18446744073709551616"),
        ("1:=1", "R", ""),
        ("1:0x2=1", "R", "0x2"),
        ("1:256=1", "R", "256"),
        ("1:1:2=3", "R", "1:2"),
        ("1:2=", "WORD", ""),
        ("1:2=G", "WORD", "G"),
        ("1:2=3=4", "WORD", "3=4"),
        ("1:2=3,1:3=4", "WORD", "3,1:3=4"),
        ("1:2=10000000000000000", "WORD", "10000000000000000"),
    ] {
        written(text, &format!("{part} of --write is {said:?}, expected a "));
    }
    let args = ["run", "", "--budget", "1,1", "--write"];
    assert_unread(&args, "--write needs K:R=WORD");
}

/// That no continuation has this number is known before anything is run.
#[test]
fn writes_before_no_continuation() {
    for operations in ["", "0,1,2,3", REVERSALS] {
        for (budgets, number, most) in [
            ("1,1", "0", 1),
            ("1,1", "2", 1),
            ("1,1,1", "3", 2),
            ("3,2,1", "00", 2),
            ("0,0,0,0", "18446744073709551615", 3),
        ] {
            let expected = format!("expected a continuation, from 1 to {most}, one less than");
            let problem = format!("K of --write is {number:?}, {expected} there are budgets");
            let write = format!("{number}:2=1");
            let writes = ["--write", "1:2=1", "--write", &write, "--set", "16=1"];
            let args = [&["run", operations, "--budget", budgets], &writes[..]].concat();
            assert_unread(&args, &problem);
        }
        for budget in [&[][..], &["--budget", "1"]] {
            let problem = "--write needs a continued run, by two budgets or more";
            for write in ["--write=1:2=1", "--write=0:2=1"] {
                assert_unread(&[&["run", operations, write], budget].concat(), problem);
            }
        }
    }
}

/// In the wrapper's words; `run` lends what is left, so that it does not meet it.
#[test]
fn refusal_14_is_listed() {
    let said = Refusal::Waiting.to_string();
    let (_, condition) = said.split_once(": ").unwrap();
    let line = format!("\n  14  {condition}\n");
    assert!(prints(&["--help"]).contains(&line));
    assert!(!prints(&["run", "--help"]).contains(&line));
}
