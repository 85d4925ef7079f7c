//! Arguments that cannot be read are named, with what was expected.

mod support;

use support::{assert_unread, command, outcome, run, Outcome};

#[test]
fn commands() {
    assert_unread(&[], "COMMAND is missing");
    assert_unread(&["turn"], "COMMAND is \"turn\", expected one of gather, ");
    assert_unread(&["help", "turn"], "COMMAND is \"turn\"");
    assert_unread(&[""], "COMMAND is \"\"");
    assert_unread(&["--version", "1"], "\"1\" is one too many");
    assert_unread(&["help", "run", "1"], "\"1\" is one too many");
    assert_unread(&["run", "--version"], "--version is no option of run");
}

#[test]
fn numbers() {
    let hexadecimal = "expected a hexadecimal number up to 0xFFFFFFFFFFFFFFFF";
    for text in ["", "0x", "G", "-1", "+1", "1_0", "10000000000000000"] {
        let mask = format!("MASK is {text:?}, {hexadecimal}");
        assert_unread(&["gather", "8", text, "1"], &mask);
        let word = format!("WORD is {text:?}, {hexadecimal}");
        assert_unread(&["butterfly", "8", "0", text], &word);
    }
    let decimal = "expected a decimal number from 0 to 4294967295";
    for text in ["", "0x8", "eight", "-8", "4294967296"] {
        let width = format!("WIDTH is {text:?}, {decimal}");
        assert_unread(&["decode", text, "1"], &width);
        let budget = format!("--budget is {text:?}, {decimal}");
        assert_unread(&["run", "", "--budget", text], &budget);
    }
    assert_unread(&["pack", "1", "1", "x", "1"], "A is \"x\"");
    assert_unread(&["pack", "1", "1", "0", "y"], "B is \"y\"");
    assert_unread(
        &["pack", "1", "1", "0", "1", "--length", "z"],
        "--length is \"z\"",
    );
}

#[test]
fn lists() {
    let byte = "expected a decimal number from 0 to 255";
    let entry = format!("entry 2 of PERMUTATION is \"256\", {byte}");
    assert_unread(&["route", "8", "0,1,256"], &entry);
    let entry = format!("entry 1 of OPERATIONS.. is \"\", {byte}");
    assert_unread(&["run", "1,,2"], &entry);
    let entry =
        "entry 0 of STAGES is \"100000000\", expected a hexadecimal number up to 0xFFFFFFFF";
    assert_unread(&["inverse", "8", "100000000", "1"], entry);
    let most = "STAGES is \"0,0,0,0,0,0,0\", expected at most 6 stages";
    assert_unread(&["inverse", "8", "0,0,0,0,0,0,0", "1"], most);
    assert_unread(
        &["unpack", "1", "q", "0", "1"],
        "entry 0 of PACKED is \"q\"",
    );
    let args = ["pack", "1", "1", "0", "1", "--out", "1,"];
    assert_unread(&args, "entry 1 of --out is \"\"");
}

#[test]
fn sets_of_controls() {
    assert_unread(&["compare", "8"], "FIRST is missing");
    assert_unread(&["compare", "8", "0/0"], "SECOND is missing");
    let args = ["compare", "8", "0/0", "0/0", "0/0"];
    assert_unread(&args, "\"0/0\" is one too many");
    let args = ["compare", "8", "0", "0", "--inverse", "--butterfly"];
    assert_unread(&args, "--butterfly and --inverse exclude each other");
    for text in ["", "0", "0,0,0", "0/0/0", "//"] {
        let expected = "expected STAGES/STAGES where neither --butterfly nor --inverse is given";
        let first = format!("FIRST is {text:?}, {expected}");
        assert_unread(&["compare", "8", text, "0/0"], &first);
        let second = format!("SECOND is {text:?}, {expected}");
        assert_unread(&["compare", "8", "0/0", text], &second);
    }
    for (option, name) in [("--butterfly", "butterfly"), ("--inverse", "inverse")] {
        for text in ["/", "0/0", "0/0/0"] {
            let expected = format!("expected STAGES of the {name} without a slash");
            let first = format!("FIRST is {text:?}, {expected}");
            assert_unread(&["compare", "8", text, "0", option], &first);
            let second = format!("SECOND is {text:?}, {expected}");
            assert_unread(&["compare", "8", "0", text, option], &second);
        }
    }
}

/// Also where the other set, or the width, would be refused.
#[test]
fn stages_of_sets() {
    let hexadecimal = "expected a hexadecimal number up to 0xFFFFFFFF";
    let entry = format!("entry 1 of SECOND is \"x\", {hexadecimal}");
    assert_unread(&["compare", "12", "10", "0,x", "--inverse"], &entry);
    let entry = format!("entry 0 of FIRST, inverse is \"100000000\", {hexadecimal}");
    assert_unread(&["compare", "8", "0/100000000", "10/0"], &entry);
    let most = "FIRST is \"0,0,0,0,0,0,0\", expected at most 6 stages";
    assert_unread(&["compare", "8", "0,0,0,0,0,0,0", "0", "--butterfly"], most);
    let most = "SECOND, butterfly is \"0,0,0,0,0,0,0\", expected at most 6 stages";
    assert_unread(&["compare", "8", "0/0", "0,0,0,0,0,0,0/0"], most);
}

#[test]
fn eight_words() {
    for (command, name) in [("planes", "WORDS.."), ("bytes", "PLANES..")] {
        assert_unread(&[command], &format!("{name} is missing"));
        for count in [0, 1, 7, 9, 16] {
            let words = vec!["1"; count].join(",");
            let expected = format!("{name} is {words:?}, expected eight words, not {count}");
            assert_unread(&[command, &words], &expected);
        }
        let words = "0,0,0,0,0,0,0";
        let more = format!("{name} is \"{words} 1 2\", expected eight words, not 9");
        assert_unread(&[command, words, "1", "2"], &more);
        let entry = format!("entry 7 of {name} is \"x\", expected a hexadecimal number");
        assert_unread(&[command, words, "x"], &entry);
        let entry = format!("entry 7 of {name} is \"10000000000000000\"");
        assert_unread(&[command, words, "10000000000000000"], &entry);
    }
}

#[test]
fn one_plane() {
    let planes = |options: &[&'static str]| [&["planes", "0,0,0,0,0,0,0,0"], options].concat();
    for text in ["8", "64", "18446744073709551615"] {
        let plane = format!("--plane is {text:?}, expected a plane, from 0 to 7");
        assert_unread(&planes(&["--plane", text]), &plane);
    }
    assert_unread(&planes(&["--plane", "x"]), "--plane is \"x\"");
    assert_unread(&planes(&["--plane"]), "--plane needs P");
    let twice = ["--plane", "1", "--plane", "2"];
    assert_unread(&planes(&twice), "--plane is given twice");
    assert_unread(&["bytes", "--text"], "--text is no option of bytes");
}

#[test]
fn movements() {
    let tile = |options: &[&'static str]| [&["tile", "1"], options].concat();
    for text in ["up", "", "Left", "leftright", "columns"] {
        let turn = format!("--turn is {text:?}, expected left or right");
        assert_unread(&tile(&["--turn", text]), &turn);
        // Also after one that can be read.
        assert_unread(&tile(&["--turn", "left", "--turn", text]), &turn);
    }
    for text in ["diagonal", "", "row", "left"] {
        let mirror = format!("--mirror is {text:?}, expected columns or rows");
        assert_unread(&tile(&["--mirror", text]), &mirror);
    }
    assert_unread(&tile(&["--turn"]), "--turn needs left|right");
    assert_unread(&tile(&["--turn", "--transpose"]), "--turn needs left|right");
    assert_unread(&tile(&["--mirror"]), "--mirror needs columns|rows");
    assert_unread(&tile(&["--transpose=1"]), "--transpose takes no value");
    assert_unread(&tile(&["--transpose", "1"]), "\"1\" is one too many");
    assert_unread(&["tile", "--turn", "left"], "WORD is missing");
    assert_unread(
        &["tile", "x"],
        "WORD is \"x\", expected a hexadecimal number",
    );
}

#[test]
fn sizes_and_words() {
    for command in ["check", "excheck", "mix-left", "mix-right"] {
        assert_unread(&[command], "SIZE is missing");
        assert_unread(&[command, "8"], "FIRST is missing");
        assert_unread(&[command, "8", "1"], "SECOND is missing");
        assert_unread(&[command, "8", "1", "2", "3"], "\"3\" is one too many");
        assert_unread(&[command, "8", "x", "1"], "FIRST is \"x\"");
        assert_unread(&[command, "8", "1", "x"], "SECOND is \"x\"");
        for text in ["0x8", "eight", "-1", "4294967296"] {
            let size = format!("SIZE is {text:?}, expected a decimal number");
            assert_unread(&[command, text, "1", "2"], &size);
            assert_unread(&["exchange", text, "1"], &size);
        }
    }
    assert_unread(&["exchange", "8"], "WORD is missing");
    assert_unread(&["exchange", "8", "1", "2"], "\"2\" is one too many");
}

#[test]
fn planes_of_pixels() {
    assert_unread(&["despeckle"], "WORDS.. is missing");
    assert_unread(&["despeckle", "--rows", "1"], "WORDS.. is missing");
    let despeckle = |options: &[&'static str]| [&["despeckle", "1,2"], options].concat();
    let decimal = "expected a decimal number from 0 to 18446744073709551615";
    for option in ["--rows", "--words"] {
        for text in ["", "0x1", "one", "-1", "18446744073709551616"] {
            let problem = format!("{option} is {text:?}, {decimal}");
            assert_unread(&despeckle(&[option, text]), &problem);
        }
        let twice = format!("{option} is given twice");
        assert_unread(&despeckle(&[option, "1", option, "1"]), &twice);
    }
    assert_unread(&despeckle(&["--rows"]), "--rows needs H");
    assert_unread(&despeckle(&["--words", "--text"]), "--words needs V");
    assert_unread(&["despeckle", "1", "2", "x"], "entry 2 of WORDS.. is \"x\"");
    assert_unread(&despeckle(&["--out", "1,x"]), "entry 1 of --out is \"x\"");
    let exclude = "--out and --length exclude each other";
    assert_unread(&despeckle(&["--out", "1,2", "--length", "2"]), exclude);
    let both = "--svg - and --text both write to the output";
    assert_unread(&despeckle(&["--svg", "-", "--text"]), both);
    assert_unread(&despeckle(&["--svg"]), "--svg needs FILE");
    assert_unread(
        &despeckle(&["--bit", "1"]),
        "--bit is no option of despeckle",
    );
}

#[test]
fn registers() {
    let form = "--set is \"2\", expected R=WORD";
    assert_unread(&["run", "", "--set", "2"], form);
    assert_unread(&["run", "", "--set", "256=1"], "R of --set is \"256\"");
    assert_unread(&["run", "", "--set", "1=2=3"], "WORD of --set is \"2=3\"");
}

/// Also where the run, or a register to set, would be refused.
#[test]
fn the_enable_byte() {
    for run in [
        ["run", "", "--budget", "0"],
        ["run", "0,1,2", "--set", "16=1"],
    ] {
        let enabled = |options: &[&'static str]| [&run, options].concat();
        for text in [
            "", "0x", "100", "0x100", "G", "-1", "+1", "1,2", "1 2", "1=2",
        ] {
            let expected = "expected a hexadecimal number up to 0xFF";
            let enable = format!("--enable is {text:?}, {expected}");
            assert_unread(&enabled(&["--enable", text]), &enable);
        }
        let twice = "--enable is given twice";
        assert_unread(&enabled(&["--enable", "1", "--enable=1"]), twice);
        assert_unread(&enabled(&["--enable"]), "--enable needs BYTE");
        let next = ["--enable", "--set", "2=1"];
        assert_unread(&enabled(&next), "--enable needs BYTE");
    }
    let args = ["gather", "8", "1", "1", "--enable", "1"];
    assert_unread(&args, "--enable is no option of gather");
}

#[test]
fn too_few_and_too_many() {
    assert_unread(
        &["help", "gather", "scatter"],
        "\"scatter\" is one too many",
    );
    assert_unread(&["gather", "8", "1"], "WORD is missing");
    assert_unread(&["run"], "OPERATIONS.. is missing");
    assert_unread(&["gather", "8", "1", "1", "5"], "\"5\" is one too many");
}

#[test]
fn options() {
    assert_unread(
        &["gather", "--text", "8", "1", "1"],
        "--text is no option of gather",
    );
    let route = |options: &[&'static str]| [&["route", "8", "0,1,2,3,4,5,6,7"], options].concat();
    assert_unread(&route(&["--svg"]), "--svg needs FILE");
    assert_unread(&route(&["--svg", "--text"]), "--svg needs FILE");
    assert_unread(&route(&["--text=yes"]), "--text takes no value");
    assert_unread(&route(&["--text", "--text"]), "--text is given twice");
    let exclude = "--butterfly and --inverse exclude each other";
    assert_unread(&route(&["--inverse", "--butterfly"]), exclude);
    assert_unread(&route(&["--groups", "--inverse", "--butterfly"]), exclude);
    let exclude = "--butterfly and --groups exclude each other";
    assert_unread(&route(&["--groups", "--butterfly"]), exclude);
    let exclude = "--inverse and --groups exclude each other";
    assert_unread(&route(&["--inverse", "--groups"]), exclude);
    let both = "--svg - and --text both write to the output";
    assert_unread(&route(&["--svg", "-", "--text"]), both);
    let exclude = "--out and --length exclude each other";
    let args = ["pack", "1", "1", "0", "1", "--length", "1", "--out", "1"];
    assert_unread(&args, exclude);
    assert_unread(
        &route(&["--bit", "1"]),
        "--bit needs a drawing, by --svg or --text",
    );
    let bit = "--bit is \"8\", expected a bit of the width, from 0 to 7";
    assert_unread(&route(&["--text", "--bit", "8"]), bit);
    assert_unread(&route(&["--text", "--bit", "x"]), "--bit is \"x\"");
}

#[test]
fn options_with_groups() {
    let groups = |options: &[&'static str]| {
        let route = ["route", "8", "0,1,2,3,4,5,6,7", "--groups"];
        [&route, options].concat()
    };
    assert_unread(&groups(&["--groups"]), "--groups is given twice");
    let both = "--svg - and --text both write to the output";
    assert_unread(&groups(&["--svg", "-", "--text"]), both);
    let drawing = "--bit needs a drawing, by --svg or --text";
    assert_unread(&groups(&["--bit", "1"]), drawing);
    let bit = "--bit is \"8\", expected a bit of the width, from 0 to 7";
    assert_unread(&groups(&["--svg", "-", "--bit", "8"]), bit);
    let value = "--groups takes no value";
    assert_unread(&["route", "8", "0,1,2,3,4,5,6,7", "--groups=3"], value);
    for command in ["decode", "compare", "group"] {
        let unknown = format!("--groups is no option of {command}");
        assert_unread(&[command, "8", "1", "1", "--groups"], &unknown);
    }
}

/// The hint leads to the help of the command.
#[test]
fn hints() {
    let hint = |args: &[&str]| run(args).error.lines().last().map(String::from);
    assert_eq!(hint(&["turn"]).unwrap(), "see tigbayon --help");
    assert_eq!(hint(&["gather"]).unwrap(), "see tigbayon gather --help");
}

#[cfg(unix)]
#[test]
fn text_that_is_not_utf_8() {
    use std::ffi::OsStr;
    use std::os::unix::ffi::OsStrExt;

    let Outcome { status, error, .. } =
        outcome(command(&["gather", "8"]).arg(OsStr::from_bytes(&[0xFF])));
    assert_eq!(status, 1);
    assert!(error.contains("is not UTF-8"), "{error}");
}
