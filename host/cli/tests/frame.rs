//! Four channels in one frame, as request 11 of paper 02 has them: what is printed.

mod support;

use conformance::samples::Random;
use support::frames::{frame_prints, frames, operations, Asked, Printed, Share};
use support::prints;

/// A frame worked out by hand.
struct Row {
    guarantees: [u32; 4],
    lists: [&'static str; 4],
    bars: [&'static str; 4],
    answers: [&'static str; 4],
    used: &'static str,
}

const EMPTY: &str = "done, 0 run, 0 cycles";
const NOTHING: &str = "spent, 0 run, 0 cycles";

const ROWS: [Row; 9] = [
    // Each has what it needs.
    Row {
        guarantees: [3, 3, 4, 1],
        lists: ["3", "12", "1", "1"],
        bars: ["■■■", "■■■", "■□□□", "■"],
        answers: [
            "done, 1 run, 3 cycles",
            "done, 2 run, 3 cycles",
            "done, 1 run, 1 cycles",
            "done, 1 run, 1 cycles",
        ],
        used: "11 cycles; guarantees 11, used 8; rest 3, used 0",
    },
    // What channel 2 leaves goes to channels 0 and 1.
    Row {
        guarantees: [2, 1, 4, 0],
        lists: ["21", "113", "1", ""],
        bars: ["■■+", "■+", "■□□□", ""],
        answers: [
            "done, 2 run, 3 cycles",
            "spent, 2 run, 2 cycles",
            "done, 1 run, 1 cycles",
            EMPTY,
        ],
        used: "7 cycles; guarantees 7, used 4; rest 3, used 2",
    },
    // What channel 3 leaves goes to the others, in number order.
    Row {
        guarantees: [0, 0, 0, 4],
        lists: ["11", "1", "111", ""],
        bars: ["++", "+", "+", "□□□□"],
        answers: [
            "done, 2 run, 2 cycles",
            "done, 1 run, 1 cycles",
            "spent, 1 run, 1 cycles",
            EMPTY,
        ],
        used: "4 cycles; guarantees 4, used 0; rest 4, used 4",
    },
    // What a channel leaves is offered to itself too.
    Row {
        guarantees: [4, 0, 0, 2],
        lists: ["33", "", "", ""],
        bars: ["■■■□+++", "", "", "□□"],
        answers: ["done, 2 run, 6 cycles", EMPTY, EMPTY, EMPTY],
        used: "6 cycles; guarantees 6, used 3; rest 3, used 3",
    },
    // What does not fit is passed on.
    Row {
        guarantees: [2, 0, 0, 0],
        lists: ["3", "2", "", ""],
        bars: ["□□", "++", "", ""],
        answers: [NOTHING, "done, 1 run, 2 cycles", EMPTY, EMPTY],
        used: "2 cycles; guarantees 2, used 0; rest 2, used 2",
    },
    // What comes after an operation that does not fit is not run.
    Row {
        guarantees: [0, 2, 0, 0],
        lists: ["31", "", "", "1111"],
        bars: ["", "□□", "", "++"],
        answers: [NOTHING, EMPTY, EMPTY, "spent, 2 run, 2 cycles"],
        used: "2 cycles; guarantees 2, used 0; rest 2, used 2",
    },
    // All need more, and nothing is left.
    Row {
        guarantees: [1, 2, 3, 1],
        lists: ["11", "21", "31", "13"],
        bars: ["■", "■■", "■■■", "■"],
        answers: [
            "spent, 1 run, 1 cycles",
            "spent, 1 run, 2 cycles",
            "spent, 1 run, 3 cycles",
            "spent, 1 run, 1 cycles",
        ],
        used: "7 cycles; guarantees 7, used 7; rest 0, used 0",
    },
    // What is left is enough for none.
    Row {
        guarantees: [1, 0, 1, 0],
        lists: ["3"; 4],
        bars: ["□", "", "□", ""],
        answers: [NOTHING; 4],
        used: "2 cycles; guarantees 2, used 0; rest 2, used 0",
    },
    Row {
        guarantees: [0; 4],
        lists: [""; 4],
        bars: [""; 4],
        answers: [EMPTY; 4],
        used: "0 cycles; guarantees 0, used 0; rest 0, used 0",
    },
];

/// The answers of a frame's channels, by their numbers.
fn answers(frame: &Printed) -> Vec<&str> {
    let numbered = frame.channels.iter().enumerate();
    let answers = numbered.map(|(channel, lines)| {
        let answer = lines[0].strip_prefix(&format!("channel {channel}: "));
        answer.expect(&lines[0])
    });
    answers.collect()
}

/// The bars of these shares and the words beside them, where a cell is up to so many
/// cycles.
fn bars(shares: &[Share], cell: u32) -> Vec<(String, String)> {
    let bars = shares.iter().map(|share| {
        let Share {
            used, left, rest, ..
        } = share;
        let parts = [('■', used), ('□', left), ('+', rest)];
        let cells = parts.map(|(sign, cycles)| vec![sign; cycles.div_ceil(cell) as usize]);
        let words = format!("{used} of {}", used + left);
        let words = match rest {
            0 => words,
            rest => format!("{words}, {rest} from the rest"),
        };
        (String::from_iter(cells.concat()), words)
    });
    bars.collect()
}

#[test]
fn rows() {
    for row in ROWS {
        let asked = Asked::of(row.guarantees, row.lists);
        let frames = frames(&asked.file(), &[]);
        assert_eq!(frames.len(), 1);
        assert_eq!(frames[0].heading, format!("frame 1: {}", row.used));
        let drawn = frames[0].bars.iter().map(|(bar, _)| bar.as_str());
        assert_eq!(Vec::from_iter(drawn), row.bars);
        assert_eq!(answers(&frames[0]), row.answers);
        let legend = "■ used of its guarantee  □ left of it  + used of the rest  a cell is a cycle";
        assert_eq!(frames[0].legend, legend);
    }
}

#[test]
fn every_share_is_told() {
    let mut random = Random::default();
    for most in (0..160).map(|number| number % 16) {
        let asked = Asked::any(&mut random, most);
        let (shares, frames) = (asked.shares(), frames(&asked.file(), &[]));
        assert_eq!(frames.len(), 1);
        assert_eq!(frames[0].bars, bars(&shares, 1), "{}", asked.file());
        let expected = [0, 1, 2, 3].map(|channel| asked.answer(channel));
        assert_eq!(answers(&frames[0]), expected);
        let sum = |cycles: fn(&Share) -> u32| shares.iter().map(cycles).sum::<u32>();
        let [used, left] = [sum(|share| share.used), sum(|share| share.left)];
        let (cycles, rest) = (asked.cycles, sum(|share| share.rest));
        let guarantees = format!("guarantees {}, used {used}", used + left);
        let heading = format!("frame 1: {cycles} cycles; {guarantees}; rest {left}, used {rest}");
        assert_eq!(frames[0].heading, heading);
    }
}

/// They are nobody's.
#[test]
fn cycles_beyond_the_guarantees() {
    for cycles in [2, 3, 100, u32::MAX] {
        let asked = Asked {
            cycles,
            ..Asked::of([1, 1, 0, 0], ["11", "2", "1", ""])
        };
        let frames = frames(&asked.file(), &[]);
        let used = format!("frame 1: {cycles} cycles; guarantees 2, used 1; rest 1, used 1");
        assert_eq!(frames[0].heading, used);
        let ends = ["done, 2 run, 2 cycles", NOTHING, NOTHING, EMPTY];
        assert_eq!(answers(&frames[0]), ends);
    }
}

/// The longest bar has sixty cells at most, but for parts that are no whole cells; so none
/// of them vanishes.
#[test]
fn bars_to_scale() {
    for (guarantees, lists, cell) in [
        ([60, 7, 0, 0], ["1", "", "", ""], 1),
        ([61, 7, 0, 1], ["1", "", "11", "1"], 2),
        ([57, 0, 0, 3], ["33333333333333333333", "", "", ""], 1),
        ([58, 0, 0, 5], ["333333333333333333333", "", "", ""], 2),
        ([120, 7, 1, 60], ["", "3", "", "2"], 2),
        ([121, 0, 9, 0], ["11", "3", "12", "2"], 3),
        ([6_000, 100, 101, 1], ["1", "", "", ""], 100),
        ([6_001, 100, 101, 1], ["1", "", "33", "2"], 101),
        ([u32::MAX, 0, 0, 0], ["3", "3", "", "1"], 71_582_789),
        ([u32::MAX - 7, 0, 7, 0], ["", "33", "1", ""], 71_582_789),
        ([1_073_741_823; 4], ["3", "1", "", "22"], 17_895_698),
    ] {
        let asked = Asked::of(guarantees, lists);
        let frames = frames(&asked.file(), &[]);
        let drawn = &frames[0].bars;
        assert_eq!(*drawn, bars(&asked.shares(), cell), "{guarantees:?}");
        let told = match cell {
            1 => "  a cell is a cycle".to_string(),
            cell => format!("  a cell is up to {cell} cycles"),
        };
        assert!(frames[0].legend.ends_with(&told), "{}", frames[0].legend);
        let longest = drawn.iter().map(|(bar, _)| bar.chars().count()).max();
        assert!((31..=62).contains(&longest.unwrap()));
    }
}

#[test]
fn words_are_one_below_the_other() {
    let asked = Asked::of([2, 1, 4, 0], ["21", "113", "1", ""]);
    let printed = frame_prints(&asked.file(), &[]);
    let lines = [
        "channel 0  ■■+   2 of 2, 1 from the rest",
        "channel 1  ■+    1 of 1, 1 from the rest",
        "channel 2  ■□□□  1 of 4",
        "channel 3        0 of 0",
    ];
    assert_eq!(Vec::from_iter(printed.lines().skip(1).take(4)), lines);
}

/// By the longest bar of all.
#[test]
fn frames_are_on_one_scale() {
    let asked = Asked::of([2, 1, 4, 0], ["21", "113", "1", ""]);
    let file = asked.file() + "frame cycles 68\nchannel 3 guarantee 61\n";
    let printed = frame_prints(&file, &[]);
    let drawn = printed
        .lines()
        .filter(|line| line.contains(" of ") && line.starts_with('c'));
    let spaces = " ".repeat(29);
    let lines = [
        format!("channel 0  ■+{spaces}  2 of 2, 1 from the rest"),
        format!("channel 1  ■+{spaces}  1 of 1, 1 from the rest"),
        format!("channel 2  ■□□{}  1 of 4", &spaces[1..]),
        format!("channel 3  {spaces}    0 of 0"),
        format!("channel 0  □{spaces}   0 of 2"),
        format!("channel 1  □++{}  0 of 1, 3 from the rest", &spaces[1..]),
        format!("channel 2  □□{spaces}  0 of 4"),
        format!("channel 3  {}  0 of 61", "□".repeat(31)),
    ];
    assert_eq!(Vec::from_iter(drawn), lines);
}

/// As the run of its list with its guarantee, where no other channel leaves it anything;
/// but for registers that were set, and not changed.
#[test]
fn a_channel_is_told_as_a_run_is() {
    let list = "9,0,0,3,8,0,0,3,4,1,2,3,3,4,2,3,5,2,2,3,10,5,2,3,7,6,2,3";
    for channel in 0..4 {
        for budget in 0..14 {
            let budget = budget.to_string();
            let args = ["run", list, "--budget", &budget, "--enable", "2"];
            let set = ["--set", "2=0xB6", "--set", "3=0xAD"];
            let run = prints(&[&args[..], &set].concat());
            let file = format!(
                "frame cycles 99\nchannel {channel} guarantee {budget}\n\
                 set 2=0xB6\nset 3=0xAD\nenable 2\nrun {list}\n"
            );
            let frames = frames(&file, &[]);
            let is_left = |line: &&str| {
                let set = ["register 2 = ", "register 3 = "];
                !set.iter().any(|register| line.starts_with(register))
            };
            let told = frames[0].channels[channel].join("\n");
            let told = told.strip_prefix(&format!("channel {channel}: ")).unwrap();
            assert_eq!(
                Vec::from_iter(told.lines()),
                Vec::from_iter(run.lines().filter(is_left))
            );
        }
    }
}

/// The lines of a frame's channel, but the first.
fn told(frame: &Printed, channel: usize) -> &[String] {
    &frame.channels[channel][1..]
}

#[test]
fn registers_that_the_frame_changed() {
    let file = "\
        frame cycles 9\n\
        channel 0 guarantee 2\n\
        set 1=5\nset 7=9\nset 3=0x8000000000000000\nset 4=1\n\
        run 1,1,2,0, 1,3,4,0\n\
        channel 3 guarantee 1\n\
        set 6=0xFFFFFFFFFFFFFFFF\nset 15=0x7\n\
        run 5,3,6,15\n\
        frame\n\
        channel 3\n\
        set 15=0\n\
        run 5,3,6,15\n";
    let frames = frames(file, &[]);
    let done = "status 0x1 (done), interrupt line low";
    // What is written into register 3 is what it held.
    assert_eq!(told(&frames[0], 0), [done, "register 1 = 0x0"]);
    let ib = ["ib1 = 0xFFFFFFFFFFFFFFFF", "ib2 = 0x7"];
    assert_eq!(told(&frames[0], 3), [done, ib[0], ib[1]]);
    assert_eq!(told(&frames[1], 3), [done, "ib2 = 0x0"]);
    for (frame, channel) in [(0, 1), (0, 2), (1, 0), (1, 1), (1, 2)] {
        assert_eq!(told(&frames[frame], channel), [done]);
    }
}

#[test]
fn the_interrupt_line_of_each_channel() {
    let file = "\
        frame cycles 9\n\
        channel 0 guarantee 1\nenable 1\nrun 1,1,2,0\n\
        channel 1 guarantee 1\nenable 0x1\nrun 1,1,2,0,6,1,2,3\n\
        channel 2 guarantee 1\nenable FE\nrun 6,1,2,3\n\
        channel 3 guarantee 0\nenable 6\n\
        frame cycles 20\n\
        channel 1 guarantee 3\n\
        channel 2 guarantee 3\nenable 0\n";
    let statuses = [
        [
            "status 0x1 (done), interrupt line high",
            "status 0x2 (spent), interrupt line low",
            "status 0x2 (spent), interrupt line high",
            "status 0x1 (done), interrupt line low",
        ],
        [
            "status 0x1 (done), interrupt line high",
            "status 0x3 (done, spent), interrupt line high",
            "status 0x3 (done, spent), interrupt line low",
            "status 0x1 (done), interrupt line low",
        ],
    ];
    for (frame, statuses) in frames(file, &[]).iter().zip(statuses) {
        let lines = [0, 1, 2, 3].map(|channel| told(frame, channel)[0].as_str());
        assert_eq!(lines, statuses);
    }
}

/// Three reversals of register 2 into 1, 3 and 4, of which one is run at first.
const WAITING: &str = "\
    frame cycles 3\n\
    channel 0 guarantee 1\nset 2=1\nrun 1,1,2,0,1,3,2,0\nrun 1,4,2,0\n\
    channel 2 guarantee 1\nrun 1,0,1,0\n";

/// A channel that waits goes on, and sees what is set meanwhile; one that is done brings
/// nothing.
#[test]
fn later_frames() {
    let spent = "status 0x2 (spent), interrupt line low";
    let [one, two] =
        ["register 1 = 0x8", "register 3 = 0x4"].map(|line| format!("{line}000000000000000"));
    let left = ["waits, 2 left to run, 8 bytes", "remainder 1,3,2,0,1,4,2,0"];
    for lines in [
        "frame\nchannel 0\nset 2=2\n",
        "frame\nchannel 0\nset 2=2\nrun 1,3,2,0,1,4,2,0\n",
    ] {
        let frames = frames(&(WAITING.to_string() + lines), &[]);
        assert_eq!(frames.len(), 2);
        assert_eq!(answers(&frames[0])[0], "spent, 1 run, 1 cycles");
        assert_eq!(told(&frames[0], 0), [spent, &one, left[0], left[1]]);
        assert_eq!(
            answers(&frames[1]),
            ["done, 2 run, 2 cycles", EMPTY, EMPTY, EMPTY]
        );
        let four = two.replace("register 3", "register 4");
        let both = "status 0x3 (done, spent), interrupt line low";
        assert_eq!(told(&frames[1], 0), [both, &two, &four]);
        let used = "frame 2: 3 cycles; guarantees 2, used 1; rest 1, used 1";
        assert_eq!(frames[1].heading, used);
    }
}

/// A later frame has its own cycles, guarantees and lists where it says so.
#[test]
fn later_frames_of_their_own() {
    let file = WAITING.to_string()
        + "\
        frame cycles 9\n\
        channel 1 guarantee 5\nrun 6,1,2,3\n\
        frame\n\
        channel 0 guarantee 0\nrun 1,5,2,0\n\
        channel 1 guarantee 0\n\
        frame cycles 0\n\
        channel 2 guarantee 0\n";
    let headings = [
        "frame 1: 3 cycles; guarantees 2, used 2; rest 0, used 0",
        "frame 2: 9 cycles; guarantees 7, used 4; rest 3, used 1",
        "frame 3: 9 cycles; guarantees 1, used 0; rest 1, used 1",
        "frame 4: 0 cycles; guarantees 0, used 0; rest 0, used 0",
    ];
    let frames = frames(&file, &[]);
    let printed = frames.iter().map(|frame| frame.heading.as_str());
    assert_eq!(Vec::from_iter(printed), headings);
    assert_eq!(
        answers(&frames[1])[..2],
        ["done, 2 run, 2 cycles", "done, 1 run, 3 cycles"]
    );
    assert_eq!(answers(&frames[2])[..2], ["done, 1 run, 1 cycles", EMPTY]);
}

/// Whether a channel waits after the frame.
fn waits(frame: &Printed) -> bool {
    frame
        .channels
        .concat()
        .iter()
        .any(|line| line.starts_with("waits, "))
}

/// Whether an operation was run in it.
fn runs(frame: &Printed) -> bool {
    answers(frame)
        .iter()
        .any(|answer| !answer.contains(", 0 run, "))
}

/// The frames added are those that a file asks for with a line each.
#[test]
fn until_no_channel_waits() {
    let mut random = Random::default();
    let (mut most, mut stuck) = (0, 0);
    for number in 0..60 {
        let file = Asked::any(&mut random, 1 + number % 10).file();
        let printed = frame_prints(&file, &["--until-done"]);
        let frames = support::frames::read_frames(&printed);
        let (last, others) = frames.split_last().unwrap();
        assert!(others.iter().all(|frame| waits(frame) && runs(frame)));
        assert!(!waits(last) || !runs(last));
        let lines = file + &"frame\n".repeat(others.len());
        assert_eq!(printed, frame_prints(&lines, &[]));
        most = most.max(frames.len());
        stuck += usize::from(waits(last));
    }
    assert!(most > 3 && stuck > 0, "{most} {stuck}");
}

#[test]
fn until_nothing_is_run() {
    for (list, count) in [
        ("3", 1),
        ("13", 2),
        ("1113", 4),
        ("1", 1),
        ("", 1),
        ("1111", 4),
    ] {
        let file = Asked::of([1, 0, 0, 0], [list, "", "", ""]).file();
        let frames = frames(&file, &["--until-done"]);
        assert_eq!(frames.len(), count, "{list}");
        assert_eq!(waits(&frames[count - 1]), list.ends_with('3'));
    }
    // Frames are added as the last one of the file.
    let file = WAITING.to_string() + "frame\nchannel 2 guarantee 0\n";
    let frames = frames(&file, &["--until-done"]);
    let headings = frames.iter().map(|frame| frame.heading.as_str());
    let later = "3 cycles; guarantees 1, used 1; rest 0, used 0";
    let expected = [
        "frame 1: 3 cycles; guarantees 2, used 2; rest 0, used 0",
        &format!("frame 2: {later}"),
        &format!("frame 3: {later}"),
    ];
    assert_eq!(Vec::from_iter(headings), expected);
}

#[test]
fn the_longest_lists() {
    let longest = &*"1".repeat(1_024);
    let lists = [longest, longest, longest, ""];
    let asked = Asked::of([1_000, 0, 1_024, 1_020], lists);
    let frames = frames(&asked.file(), &[]);
    let ends = [0, 1, 2, 3].map(|channel| asked.answer(channel));
    assert_eq!(answers(&frames[0]), ends);
    assert_eq!(ends[1], "spent, 996 run, 996 cycles");
    let left = told(&frames[0], 1).last().unwrap();
    assert_eq!(*left, format!("remainder {}", operations(&"1".repeat(28))));
}
