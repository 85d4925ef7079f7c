//! Frames that are refused, as request 11 of paper 02 has it.

mod support;

use support::frames::{frame, frame_prints, read_frames};
use support::{folder, list, prints, Outcome};
use tigbayon::Refusal;

/// What is said of a refusal.
struct Refused {
    first: String,
    below: String,
}

/// How the frames of this file are refused.
fn refused(file: &str, options: &[&str]) -> Refused {
    let Outcome {
        status,
        output,
        error,
    } = frame(file, options);
    assert_eq!((status, output.as_str()), (2, ""), "{file}: {error}");
    let (first, below) = error.split_once('\n').unwrap();
    Refused {
        first: first.to_string(),
        below: below.to_string(),
    }
}

/// What is said of a refusal at this line.
fn said(refusal: Refusal, line: usize) -> String {
    let help = prints(&["frame", "--help"]);
    let (_, refusals) = help.split_once("\nRefusals:\n").unwrap();
    let number = format!("{:>2}  ", refusal.number());
    let mut conditions = refusals.lines().map(str::trim_start);
    let condition = conditions.find_map(|line| line.strip_prefix(number.trim_start()));
    format!(
        "refused {}: {} (line {line})",
        refusal.number(),
        condition.unwrap()
    )
}

/// The status of each channel after a refused frame.
fn statuses(words: [&str; 4]) -> String {
    let channels = words.iter().enumerate();
    let lines = channels.map(|(channel, words)| format!("channel {channel}: status {words}\n"));
    lines.collect()
}

const REFUSED: &str = "0x4 (refused), interrupt line low";

/// Lists that no channel may bring.
const LISTS: [(&str, Refusal); 9] = [
    ("1", Refusal::Length),
    ("1,1,2,0,1", Refusal::Length),
    ("0,16,16,16,1", Refusal::Length),
    ("0,1,2,3", Refusal::Kind),
    ("1,1,2,0,11,16,2,3", Refusal::Kind),
    ("5,0,2,3", Refusal::Kind),
    ("6,16,2,3", Refusal::Register),
    ("1,1,2,0,6,1,2,16", Refusal::Register),
    ("5,1,2,255", Refusal::Register),
];

/// Of any channel, whatever its guarantee; all banks have the bit, and nothing is run.
#[test]
fn by_a_list() {
    for (list, refusal) in LISTS {
        for channel in 0..4 {
            for guarantee in [0, 9] {
                let file = format!(
                    "# Line 1\nframe cycles 9\nchannel {channel} guarantee {guarantee}\nrun {list}\n"
                );
                let Refused { first, below } = refused(&file, &[]);
                assert_eq!(first, said(refusal, 2));
                assert_eq!(below, statuses([REFUSED; 4]));
            }
        }
    }
    let long = list(&[1, 1, 2, 0].repeat(1_025));
    let file = format!("frame cycles 0\nchannel 3\nrun {long}\n");
    assert_eq!(refused(&file, &[]).first, said(Refusal::Length, 1));
}

/// Of two channels in either order, and before 15.
#[test]
fn by_the_lowest_number() {
    for (one, refusal) in LISTS {
        for (other, other_refusal) in LISTS {
            for [first, second] in [[0, 3], [2, 1]] {
                let file = format!(
                    "frame cycles 1\nchannel {first} guarantee 2\nrun {one}\n\
                     channel {second}\nrun {other}\n"
                );
                let lowest = refusal.min(other_refusal);
                assert_eq!(refused(&file, &[]).first, said(lowest, 1), "{file}");
            }
        }
    }
}

/// By their true sum.
#[test]
fn by_the_guarantees() {
    for (cycles, guarantees) in [
        (0, [1, 0, 0, 0]),
        (0, [0, 0, 0, 1]),
        (9, [3, 3, 3, 1]),
        (u32::MAX, [u32::MAX, 0, 0, 1]),
        (u32::MAX, [1 << 30; 4]),
        (u32::MAX, [u32::MAX; 4]),
        (2, [1 << 31, 1 << 31, 1, 1]),
    ] {
        let mut file = format!("frame cycles {cycles}\n");
        for (channel, guarantee) in guarantees.iter().enumerate() {
            file += &format!("channel {channel} guarantee {guarantee}\nrun 1,1,2,0\n");
        }
        let Refused { first, below } = refused(&file, &[]);
        assert_eq!(first, said(Refusal::Frame, 1));
        assert_eq!(below, statuses([REFUSED; 4]));
    }
    let said = "refused 15: the guarantees sum above the cycles of the frame (line 1)";
    assert_eq!(
        refused("frame cycles 0\nchannel 2 guarantee 1", &[]).first,
        said
    );
}

/// Channel 1 waits, with these operations left.
const WAITING: &str = "\
    frame cycles 2\n\
    channel 0 guarantee 1\nrun 1,1,2,0\n\
    channel 1 guarantee 1\nset 2=1\nrun 1,1,2,0,1,3,2,0,1,4,2,0\n";

/// A bank waits, and its list is not what is left; the frame before is told.
#[test]
fn by_a_list_that_is_not_the_remainder() {
    let before = frame_prints(WAITING, &[]);
    let statuses = statuses([
        "0x5 (done, refused), interrupt line low",
        "0x6 (spent, refused), interrupt line low",
        "0x5 (done, refused), interrupt line low",
        "0x5 (done, refused), interrupt line low",
    ]);
    for list in [
        "",
        "1,1,2,0",
        "1,3,2,0",
        "1,1,2,0,1,3,2,0,1,4,2,0",
        "1,3,2,0,1,4,2,1",
        "1,3,2,0,1,4,2,0,1,4,2,0",
    ] {
        let file = format!("{WAITING}\nframe\nchannel 1 guarantee 0\nrun {list}\n");
        let Refused { first, below } = refused(&file, &["--until-done"]);
        assert_eq!(first, said(Refusal::Waiting, 8), "{list}");
        assert_eq!(below, format!("{before}\n{statuses}"));
    }
    let file = WAITING.to_string() + "frame\nchannel 1\nrun 1,3,2,0,1,4,2,0\n";
    assert_eq!(read_frames(&frame_prints(&file, &[])).len(), 2);
    // 4, 7 and 8 come before, 15 after.
    for (list, refusal) in LISTS {
        let file = format!("{WAITING}frame\nchannel 1\nrun\nchannel 2\nrun {list}\n");
        assert_eq!(refused(&file, &[]).first, said(refusal, 7));
    }
    let file = WAITING.to_string() + "frame cycles 0\nchannel 1\nrun 1,3,2,0\n";
    assert_eq!(refused(&file, &[]).first, said(Refusal::Waiting, 7));
}

/// The frames after it are not made.
#[test]
fn the_first_frame_that_is_refused_ends_it() {
    let file = WAITING.to_string() + "frame cycles 1\nframe cycles 2\nchannel 0\nrun 0\n";
    let Refused { first, below } = refused(&file, &[]);
    assert_eq!(first, said(Refusal::Frame, 7));
    assert_eq!(below.matches("frame 1: ").count(), 1);
    assert_eq!(below.matches("frame 2: ").count(), 0);
}

/// No frame is made with it, even if it would be refused by a lower number.
#[test]
fn by_a_register_to_set() {
    for line in ["set 16=1", "set 255=0xFF"] {
        for list in ["", "1,1,2,0", "0,1,2,3", "1"] {
            let lines = format!("channel 3\nset 15=1\n{line}\nrun {list}\n");
            let file = format!("frame cycles 0\nchannel 0 guarantee 1\n{lines}");
            let Refused { first, below } = refused(&file, &["--until-done"]);
            assert_eq!(first, said(Refusal::Register, 5));
            assert_eq!(below, "");
            // The frames before it are told.
            let file = format!("{WAITING}frame\n{lines}");
            let Refused { first, below } = refused(&file, &[]);
            assert_eq!(first, said(Refusal::Register, 10));
            assert_eq!(below, frame_prints(WAITING, &[]));
        }
    }
}

#[test]
fn the_interrupt_line_of_each_channel() {
    let file = "\
        frame cycles 0\n\
        channel 0 guarantee 1\nenable 4\n\
        channel 1\nenable 0x3\n\
        channel 2\nenable FF\n";
    let [low, high] = [REFUSED, "0x4 (refused), interrupt line high"];
    assert_eq!(refused(file, &[]).below, statuses([high, low, high, low]));
}

/// Nor is it drawn to the output.
#[test]
fn no_drawing_is_written() {
    let name = folder("frame_refused").join("never.svg");
    for file in [
        "frame cycles 0\nchannel 0 guarantee 1\n",
        &format!("{WAITING}frame cycles 0\n"),
    ] {
        refused(file, &["--svg", name.to_str().unwrap()]);
        refused(file, &["--svg", "-"]);
        assert!(!name.exists());
    }
}

/// In the wrapper's words.
#[test]
fn refusals_are_listed() {
    for refusal in [Refusal::Waiting, Refusal::Frame] {
        let said = refusal.to_string();
        let (_, condition) = said.split_once(": ").unwrap();
        let line = format!("\n  {}  {condition}\n", refusal.number());
        for help in [prints(&["--help"]), prints(&["frame", "--help"])] {
            assert!(help.contains(&line), "{line}");
        }
        assert!(!prints(&["run", "--help"]).contains(&line));
    }
}
