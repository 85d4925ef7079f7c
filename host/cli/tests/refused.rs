//! Every refusal of every command is the library's.

mod support;

use support::{run, Outcome};
use tigbayon::Refusal;

/// What a permutation is routed by: both networks, one alone, or groups.
const MEANS: [&[&str]; 4] = [&[], &["--butterfly"], &["--inverse"], &["--groups"]];

/// Asserts that the call is refused so, and that nothing else is said.
fn assert_refused(args: &[&str], refusal: Refusal) {
    assert_refused_above(args, refusal, &[]);
}

/// Asserts that the run of this list is refused so, and that only its status is said below.
fn assert_run_refused(list: &str, refusal: Refusal) {
    let polled = "status 0x4 (refused), interrupt line low";
    assert_refused_above(&["run", list], refusal, &[polled]);
}

/// Asserts that the call is refused so, and that only these lines are said below.
fn assert_refused_above(args: &[&str], refusal: Refusal, below: &[&str]) {
    let Outcome {
        status,
        output,
        error,
    } = run(args);
    assert_eq!((status, output.as_str()), (2, ""), "{args:?}");
    let said = format!("refused {}: ", refusal.number());
    assert!(error.starts_with(&said), "{args:?}: {error}");
    assert_eq!(Vec::from_iter(error.lines().skip(1)), below, "{args:?}");
}

#[test]
fn by_width() {
    for width in ["0", "7", "12", "128", "4294967295"] {
        for call in ["gather", "scatter", "group", "butterfly", "inverse"] {
            assert_refused(&[call, width, "1", "1"], Refusal::Width);
        }
        assert_refused(&["decode", width, "1"], Refusal::Width);
        for means in MEANS {
            let args = [&["route", width, "0,1,2"], means].concat();
            assert_refused(&args, Refusal::Width);
        }
        assert_refused(&["compare", width, "1/1", "10/1"], Refusal::Width);
        for network in ["--butterfly", "--inverse"] {
            assert_refused(&["compare", width, "1", "10", network], Refusal::Width);
        }
    }
    let said = "refused 1: width not 8, 16, 32, 64\n";
    assert_eq!(run(&["compare", "12", "1/1", "10/1"]).error, said);
}

#[test]
fn by_a_one_above() {
    for call in ["gather", "scatter", "group"] {
        assert_refused(&[call, "8", "0xAD", "0x100"], Refusal::Above);
        assert_refused(&[call, "32", "100000000", "0"], Refusal::Above);
    }
    for call in ["butterfly", "inverse"] {
        assert_refused(&[call, "8", "0", "0x100"], Refusal::Above);
    }
    assert_refused(&["decode", "16", "0x10000"], Refusal::Above);
}

#[test]
fn by_an_unused_control() {
    for call in ["butterfly", "inverse"] {
        assert_refused(&[call, "8", "0x10", "1"], Refusal::Unused);
        assert_refused(&[call, "8", "0,0,0,1", "1"], Refusal::Unused);
        assert_refused(&[call, "32", "0,0,0,0,0,1", "1"], Refusal::Unused);
    }
}

/// It is said which set has it, and of both networks which one.
#[test]
fn by_an_unused_control_of_a_set() {
    let assert_named = |args: &[&str], part: &str| {
        assert_refused(args, Refusal::Unused);
        let said = format!("refused 3: a one in an unused control bit or stage ({part})\n");
        assert_eq!(run(args).error, said, "{args:?}");
    };
    for (width, unused) in [
        ("8", "0x10"),
        ("8", "0,0,80000000"),
        ("8", "0,0,0,1"),
        ("16", "0,0,0,100"),
        ("16", "0,0,0,0,1"),
        ("32", "10000"),
        ("32", "0,0,0,0,0,1"),
    ] {
        for network in ["--butterfly", "--inverse"] {
            assert_named(&["compare", width, unused, "0", network], "FIRST");
            assert_named(&["compare", width, "0", unused, network], "SECOND");
            assert_named(&["compare", width, unused, unused, network], "FIRST");
        }
        let [butterfly, inverse] = [format!("{unused}/0"), format!("0/{unused}")];
        let both = format!("{unused}/{unused}");
        for (first, second, part) in [
            (butterfly.as_str(), "0/0", "FIRST, butterfly"),
            (&inverse, "0/0", "FIRST, inverse"),
            ("0/0", &butterfly, "SECOND, butterfly"),
            ("0/0", &inverse, "SECOND, inverse"),
            (&inverse, &butterfly, "FIRST, inverse"),
            (&both, &both, "FIRST, butterfly"),
        ] {
            assert_named(&["compare", width, first, second], part);
        }
    }
    let used = ["FFFFFFFF"; 6].join(",");
    let args = ["compare", "64", &used, &used, "--inverse"];
    assert_eq!(run(&args).status, 0);
}

#[test]
fn by_length() {
    let list = vec!["1"; 4100].join(",");
    for means in MEANS {
        let route = |permutation| [&["route", "8", permutation], means].concat();
        assert_refused(&route(""), Refusal::Length);
        assert_refused(&route("0,1,2,3,4,5,6"), Refusal::Length);
        assert_refused(&route("0,1,2,3,4,5,6,7,8"), Refusal::Length);
        assert_refused(&route(&list), Refusal::Length);
    }
    assert_run_refused("8,0,0,3,3", Refusal::Length);
    assert_run_refused(&list, Refusal::Length);
}

#[test]
fn by_an_entry() {
    for means in MEANS {
        for permutation in ["0,0,2,3,4,5,6,7", "0,1,2,3,4,5,6,8", "0,1,2,3,4,5,6,255"] {
            let args = [&["route", "8", permutation], means].concat();
            assert_refused(&args, Refusal::Entry);
        }
    }
}

#[test]
fn by_the_one_network() {
    for network in ["--butterfly", "--inverse"] {
        let args = ["route", "8", "0,4,2,3,1,5,6,7", network];
        assert_refused(&args, Refusal::NotRealised);
    }
}

#[test]
fn by_kind_and_register() {
    for list in ["0,1,2,3", "11,1,2,3", "5,0,2,3", "5,5,2,3", "255,0,0,0"] {
        assert_run_refused(list, Refusal::Kind);
    }
    for list in ["6,16,2,3", "6,1,16,3", "6,1,2,16", "5,1,2,255"] {
        assert_run_refused(list, Refusal::Register);
    }
}

/// No run is made, even if it would be refused by a lower number.
#[test]
fn by_a_register_to_set() {
    for list in ["", "1,1,2,0", "0,1,2,3", "8,0,0,3,3"] {
        for set in ["16=1", "255=0"] {
            let args = ["run", list, "--set", "15=1", "--set", set, "--enable", "FF"];
            assert_refused(&args, Refusal::Register);
        }
    }
}

#[test]
fn by_range() {
    let long = vec!["1"; 2049].join(",");
    for call in ["pack", "unpack"] {
        assert_refused(&[call, "FFF", "1,2,3,4", "3", "2"], Refusal::Range);
        assert_refused(
            &[call, "1", "1", "18446744073709551615", "0"],
            Refusal::Range,
        );
        assert_refused(
            &[call, "1", "1", "0", "18446744073709551615"],
            Refusal::Range,
        );
        assert_refused(&[call, "1", &long, "0", "1"], Refusal::Range);
        assert_refused(&[call, "1", "1", "0", "1", "--out", &long], Refusal::Range);
        for length in ["2049", "18446744073709551615"] {
            let args = [call, "1", "1", "0", "1", "--length", length];
            assert_refused(&args, Refusal::Range);
        }
        let args = [call, "1", "1", "0", "1", "--length", "2048"];
        assert_eq!(run(&args).status, 0);
    }
    assert_refused(&["pack", "FFF", "1,2,3,4", "0", "5"], Refusal::Range);
    let args = ["unpack", "FFF", "1", "0", "5", "--length", "4"];
    assert_refused(&args, Refusal::Range);
}

#[test]
fn by_too_few_words() {
    let call = ["pack", "0xFFF", "1,2,3,4,5,0x9A6", "0", "6"];
    for lent in [["--out", "7"], ["--length", "1"], ["--out", ""]] {
        assert_refused(&[&call[..], &lent].concat(), Refusal::Short);
    }
    assert_refused(&["unpack", "0xFFF", "1", "0", "6"], Refusal::Short);
}

/// Of the last word that unpack reads alone; pack refuses none.
#[test]
fn by_a_spare_bit() {
    let clean = "0x6005004003002001,0x9A";
    for end in [
        "0x19A",
        "0x800000000000009A",
        "FFFFFFFFFFFFFF9A",
        "0x19A,0x9A",
    ] {
        let dirty = format!("0x6005004003002001,{end}");
        for out in [[].as_slice(), &["--out", "7,7,7,7,7,7"], &["--length", "9"]] {
            let args = [&["unpack", "0xFFF", &dirty, "0", "6"], out].concat();
            assert_refused(&args, Refusal::Spare);
        }
    }
    assert_refused(&["unpack", "0xFFF", clean, "0", "2"], Refusal::Spare);
    let said = "refused 11: a spare bit of the last packed word read is one\n";
    assert_eq!(run(&["unpack", "1", "2", "0", "1"]).error, said);
    let beyond = format!("{clean},0x19A");
    for packed in [clean, &beyond] {
        assert_eq!(run(&["unpack", "0xFFF", packed, "0", "6"]).status, 0);
    }
    let ones = ["FFFFFFFFFFFFFFFF"; 2].join(",");
    let args = ["pack", "0xFFF", &ones, "0", "1", "--out", &ones];
    assert_eq!(run(&args).status, 0);
}

/// 9 and 10 come first.
#[test]
fn by_a_spare_bit_last() {
    let ones = "FFFFFFFFFFFFFFFF";
    let call = ["unpack", "0xFFF", ones, "0", "5"];
    assert_refused(&call, Refusal::Spare);
    assert_refused(&[&call[..], &["--length", "4"]].concat(), Refusal::Range);
    assert_refused(&["unpack", "0xFFF", ones, "0", "6"], Refusal::Short);
}

#[test]
fn by_a_subword_size() {
    for size in ["0", "3", "12", "63", "64", "65", "128", "4294967295"] {
        for call in ["check", "excheck", "mix-left", "mix-right"] {
            assert_refused(&[call, size, "1", "2"], Refusal::Subword);
        }
        assert_refused(&["exchange", size, "1"], Refusal::Subword);
    }
    let said = "refused 12: subword size not 1, 2, 4, 8, 16, 32\n";
    assert_eq!(run(&["mix-left", "64", "1", "2"]).error, said);
}

/// 9 and 10 come first.
#[test]
fn by_a_plane() {
    let despeckle = |rows, words, options: &[&'static str]| {
        let shape = ["despeckle", "1,2,3,4,5,6", "--rows", rows, "--words", words];
        [&shape[..], options].concat()
    };
    let huge = "18446744073709551615";
    for [rows, words] in [["2", "2"], ["7", "1"], ["0", "6"], ["6", "0"], ["0", huge]] {
        assert_refused(&despeckle(rows, words, &[]), Refusal::Plane);
        let lent = despeckle(rows, words, &["--length", "9"]);
        assert_refused(&lent, Refusal::Plane);
        let long = despeckle(rows, words, &["--length", "2049"]);
        assert_refused(&long, Refusal::Range);
    }
    for [rows, words] in [[huge, "1"], [huge, huge], ["4294967296", "4294967296"]] {
        assert_refused(&despeckle(rows, words, &[]), Refusal::Short);
    }
    assert_refused(&despeckle("2", "3", &["--out", "7,7"]), Refusal::Short);
    assert_refused(&despeckle("2", "3", &["--out", ""]), Refusal::Short);
    assert_refused(&["despeckle", ""], Refusal::Plane);
    for [option, count] in [["--rows", "4"], ["--words", "5"], ["--rows", "0"]] {
        let args = ["despeckle", "1,2,3,4,5,6", option, count];
        assert_refused(&args, Refusal::Plane);
    }
    let long = vec!["1"; 2049].join(",");
    assert_refused(&["despeckle", &long], Refusal::Range);
    let said = "refused 13: no rows, no words in a row, or the plane's length not their product\n";
    assert_eq!(run(&["despeckle", ""]).error, said);
    assert_eq!(run(&despeckle("2", "3", &["--length", "2048"])).status, 0);
}

/// A drawing of a refused call is not written.
#[test]
fn leave_no_file() {
    let file = support::folder("refused").join("never.svg");
    let name = file.to_str().unwrap();
    assert_refused(&["decode", "12", "1", "--svg", name], Refusal::Width);
    assert_refused(
        &["route", "8", "1", "--svg", name, "--bit", "9"],
        Refusal::Length,
    );
    assert_refused(
        &["route", "8", "1", "--groups", "--svg", name, "--bit", "9"],
        Refusal::Length,
    );
    assert_refused(&["despeckle", "", "--svg", name], Refusal::Plane);
    assert!(!file.exists());
}
