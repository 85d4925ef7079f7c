//! The file of frames: how it is written, and what cannot be read.

mod support;

use std::fs;
use support::frames::{frame, frame_prints, frames};
use support::{assert_unread, folder, prints};

const FILE: &str = "\
frame cycles 9
channel 0 guarantee 2
set 2=0xB6
set 3=0xAD
enable 0x1
run 8,0,0,3,3,1,2,3
channel 2 guarantee 5
run 10,1,2,3
frame
channel 0
set 2=0x1
run 3,1,2,3
";

/// Spaces, tabs and empty lines anywhere, comments to the end of a line, any order of a
/// channel's lines and of channels.
#[test]
fn every_form() {
    let printed = frame_prints(FILE, &[]);
    for file in [
        "\
        # A frame.\r\n\
        \r\n\
        frame cycles 9 # And its cycles.\r\n\
        \tchannel 0\tguarantee   2\t# Channel 0.\r\n\
        \t\trun 8,0,0,3\r\n\
        \t\tset\t2=b6\r\n\
        #\r\n\
        \t\tenable 01\r\n\
        \t\tset 03=0x00aD\r\n\
        \t\trun 3 1 2 3\r\n\
        channel 02 guarantee 05\r\n\
        run 10, 1, 2 3#run 0\r\n\
        frame\r\n\
        channel 0\r\n\
        set 2=1 #\r\n\
        run 3,1,2,3",
        "\
        frame cycles 9\n\
        channel 2 guarantee 5\n\
        run 10\nrun 1 2\nrun\nrun 3\n\
        channel 0 guarantee 2\n\
        set 3=7\nset 2=0xB6\nset 3=0xAD\n\
        run 8,0,0,3,3\nrun 1,2,3\n\
        enable 1\n\
        channel 1 guarantee 0\nrun\n\
        channel 3\n\
        frame cycles 9\n\
        channel 2 guarantee 5\n\
        channel 0 guarantee 2\n\
        run 3,1,2,3\n\
        set 2=1\n",
    ] {
        assert_eq!(frame_prints(file, &[]), printed, "{file}");
    }
}

/// The file may be the standard input.
#[test]
fn from_a_file() {
    let name = folder("frame_file").join("channels.txt");
    fs::write(&name, FILE).unwrap();
    let name = name.to_str().unwrap();
    for options in [&[][..], &["--until-done"], &["--svg", "-"]] {
        let args = [&["frame", name], options].concat();
        assert_eq!(prints(&args), frame_prints(FILE, options));
    }
}

#[test]
fn what_is_not_given() {
    let file = "frame cycles 7\nchannel 2\nrun 1,1,2,0\n";
    let frames = frames(file, &[]);
    assert_eq!(
        frames[0].heading,
        "frame 1: 7 cycles; guarantees 0, used 0; rest 0, used 0"
    );
    let ends = frames[0].channels.iter().map(|lines| lines[0].as_str());
    let ends = Vec::from_iter(ends);
    assert_eq!(ends[2], "channel 2: spent, 0 run, 0 cycles");
    assert_eq!(ends[3], "channel 3: done, 0 run, 0 cycles");
}

/// Asserts that the last line of the file is not read, also below comments.
fn assert_line_unread(file: &str, problem: &str) {
    for before in ["", "# A comment.\n\n"] {
        let file = before.to_string() + file;
        let number = file.lines().count();
        let message = format!("tigbayon frame: line {number}: {problem}\nsee tigbayon frame");
        frame(&format!("{file} # Another.\nset x"), &[]).assert_unread(&message);
    }
}

/// The same in a frame and in a channel, where a register to set and the frame would be
/// refused.
fn assert_unread_in_a_frame(line: &str, problem: &str) {
    let frame = "frame cycles 0\nchannel 0 guarantee 1\nset 16=1\nrun 0\n";
    assert_line_unread(&format!("{frame}{line}"), problem);
    assert_line_unread(&format!("{frame}frame\nchannel 0\n{line}"), problem);
}

#[test]
fn first_words() {
    for word in [
        "frames",
        "Frame",
        "cycles",
        "guarantee",
        "write",
        "2=1",
        "--set",
        "8,0,0,3",
    ] {
        let expected = "expected frame, channel, set, enable or run";
        let problem = format!("the first word is {word:?}, {expected}");
        for line in [word.to_string(), format!("{word} 1")] {
            assert_line_unread(&line, &problem);
            assert_unread_in_a_frame(&line, &problem);
        }
    }
}

#[test]
fn numbers() {
    let decimal = "expected a decimal number from 0 to 4294967295";
    for text in ["", "x", "-1", "0x10", "1,000", "1 2", "4294967296"] {
        let problem = format!("cycles of frame is {text:?}, {decimal}");
        assert_line_unread(&format!("frame cycles {text}"), &problem);
        assert_unread_in_a_frame(&format!("frame cycles {text}"), &problem);
        let problem = format!("guarantee of channel 1 is {text:?}, {decimal}");
        assert_unread_in_a_frame(&format!("channel 1 guarantee {text}"), &problem);
    }
    for text in ["40", "cycle 40", "cycles=40", "40 cycles"] {
        let problem = format!("frame is {text:?}, expected cycles N");
        assert_line_unread(&format!("frame {text}"), &problem);
        assert_unread_in_a_frame(&format!("frame {text}"), &problem);
    }
    for text in ["10", "Guarantee 10", "guarantee=10", "guaranteed 10"] {
        let problem = format!("channel 3 is {text:?}, expected guarantee N");
        assert_unread_in_a_frame(&format!("channel 3 {text}"), &problem);
    }
    for text in ["", "4", "-1", "x", "0x1", "guarantee", "256", "0,1"] {
        let problem = format!("channel is {text:?}, expected a channel, from 0 to 3");
        assert_unread_in_a_frame(&format!("channel {text}"), &problem);
    }
}

#[test]
fn registers_enable_bytes_and_operations() {
    for text in ["", "2", "2 1", "2:1"] {
        let problem = format!("set is {text:?}, expected R=WORD");
        assert_unread_in_a_frame(&format!("set {text}"), &problem);
    }
    for (text, part, said) in [
        ("=1", "R", ""),
        ("0x2=1", "R", "0x2"),
        ("256=1", "R", "256"),
        ("2 = 1", "R", "2 "),
        ("2=", "WORD", ""),
        ("2=G", "WORD", "G"),
        ("2=1 3=4", "WORD", "1 3=4"),
        ("2=10000000000000000", "WORD", "10000000000000000"),
    ] {
        let number = match part {
            "R" => "a decimal number from 0 to 255",
            _ => "a hexadecimal number up to 0xFFFFFFFFFFFFFFFF",
        };
        let problem = format!("{part} of set is {said:?}, expected {number}");
        assert_unread_in_a_frame(&format!("set {text}"), &problem);
    }
    for text in ["", "100", "G", "1 2", "1,2"] {
        let expected = "expected a hexadecimal number up to 0xFF";
        let problem = format!("enable is {text:?}, {expected}");
        assert_unread_in_a_frame(&format!("enable {text}"), &problem);
    }
    for (text, entry, said) in [
        ("1,1,2,0,", 4, ""),
        ("1,,2", 1, ""),
        ("0x1", 0, "0x1"),
        ("1 2 256", 2, "256"),
        ("pex 1 2 3", 0, "pex"),
    ] {
        let expected = "expected a decimal number from 0 to 255";
        let problem = format!("entry {entry} of run is {said:?}, {expected}");
        assert_unread_in_a_frame(&format!("run {text}"), &problem);
    }
}

#[test]
fn lines_out_of_place() {
    assert_line_unread("frame", "the first frame needs cycles N");
    assert_line_unread("channel 0 guarantee 1", "channel needs a frame above it");
    for line in ["set 2=1", "enable 1", "run 1,1,2,0"] {
        let (word, _) = line.split_once(' ').unwrap();
        let problem = format!("{word} needs a channel above it");
        assert_line_unread(line, &problem);
        assert_line_unread(&format!("frame cycles 9\n{line}"), &problem);
        let earlier = "frame cycles 9\nchannel 0\nset 2=1\nframe";
        assert_line_unread(&format!("{earlier}\n{line}"), &problem);
    }
}

#[test]
fn lines_given_twice() {
    for line in ["channel 0", "channel 0 guarantee 1", "channel 00"] {
        assert_unread_in_a_frame(line, "channel 0 is given twice");
        let between = format!("channel 1\n{line}");
        assert_unread_in_a_frame(&between, "channel 0 is given twice");
    }
    assert_unread_in_a_frame("enable 1\nrun\nenable 1", "enable is given twice");
}

#[test]
fn files_that_cannot_be_read() {
    for file in ["", "\n", "# frame cycles 9\n"] {
        frame(file, &[]).assert_unread("tigbayon frame: FILE has no frame\n");
    }
    assert_unread(&["frame"], "frame: FILE is missing (");
    assert_unread(&["frame", "a", "b"], "frame: \"b\" is one too many");
    let folder = folder("frame_unread");
    let not_text = folder.join("not_text");
    fs::write(&not_text, [0xFF]).unwrap();
    for name in [&folder.join("missing"), &folder, &not_text] {
        let problem = format!("frame: cannot read {name:?}: ");
        assert_unread(&["frame", name.to_str().unwrap()], &problem);
    }
}

#[test]
fn options() {
    assert_unread(
        &["frame", "-", "--until-done=3"],
        "--until-done takes no value",
    );
    assert_unread(&["frame", "-", "--svg"], "--svg needs FILE");
    for option in ["--text", "--budget", "--set"] {
        assert_unread(
            &["frame", "-", option],
            &format!("{option} is no option of frame"),
        );
    }
}
