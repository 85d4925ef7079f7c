//! include/tigbayon.h compiles as C and as C++, lays its structs out as the
//! Rust declarations do, and its calls link and answer.

use std::fs;
use std::mem::{align_of, offset_of, size_of};
use std::path::{Path, PathBuf};
use std::process::Command;
use tigbayon::{Refusal, TbBank, TbCarried, TbChannel, TbControls1, TbControls2, TbCycles};
use tigbayon::{TbFrame, TbGathered, TbMasks, TbPacked, TbPlanes, TbPrepared, TbRegister, TbRun};

const CRATE: &str = env!("CARGO_MANIFEST_DIR");
const README: &str = include_str!("../../../README.md");
const HEADER: &str = include_str!("../../../include/tigbayon.h");

/// What it prints of routing by groups, and of a word grouped so.
const GROUPS: &str = "\
    route_groups 0: aa a5 95 0 0 0\n\
    group 0 4 6d\n\
    group 0 4 a7\n\
    group 0 4 5b\n\
    route_groups 0: aaaaaaaaaaaaaaaa aaaaaaaaaaaaaaaa aaaaaaaaaaaaaaaa aaaaaaaaaaaaaaaa \
    aaaaaaaaaaaaaaaa aaaaaaaaaaaaaaaa\n\
    route_groups 1: 0 0 0 0 0 0\n\
    route_groups 4: 0 0 0 0 0 0\n\
    route_groups 5: 0 0 0 0 0 0\n\
    route_groups 4: 0 0 0 0 0 0\n\
    permutation 1 2 3 4 5 6 7 0\n";

/// What it prints of prepared networks.
const PREPARED: &str = "\
    prepare_butterfly 0: 0 0 0 f0f0f0f0f0f0f08 3333333333333332 5555555555555544\n\
    butterfly_prepared a4\n\
    prepare_inverse 0: 0 0 0 f0f0f0f0f0f0f08 3333333333333332 5555555555555544\n\
    inverse_prepared 1a\n\
    prepare_butterfly 0: ffffffff ffff0000ffff ff00ff00ff00ff f0f0f0f0f0f0f0f \
    3333333333333333 5555555555555555\n\
    prepare_butterfly 1: 0 0 0 0 0 0\n\
    prepare_inverse 3: 0 0 0 0 0 0\n\
    butterfly_prepared 380000000\n\
    inverse_prepared 2\n";

/// What pack and unpack answer, and the words then.
const PACKING: &str = "\
    pack 0 12 72: 6005004003002001 9a 7\n\
    unpack 0 12 72: 7 1 2 3 4 5 9a6 7\n\
    pack 10 0 0: 6005004003002001 9a 7\n\
    pack 9 0 0: 6005004003002001 9a 7\n\
    unpack 10 0 0: 7 1 2 3 4 5 9a6 7\n\
    unpack 9 0 0: 7 1 2 3 4 5 9a6 7\n\
    unpack 11 0 0: 7 1 2 3 4 5 9a6 7\n\
    unpack 10 0 0: 7 1 2 3 4 5 9a6 7\n\
    pack 0 64 0:\n\
    unpack 0 64 0:\n\
    pack 9 0 0:\n\
    pack 10 0 0:\n\
    unpack 0 0 0: 7 0 0 0 0 0 0 7\n\
    words: 1 2 3 4 5 9a6\n";

/// What it prints of bit planes.
const PLANES: &str = "\
    to_planes: 401 400 0 0 0 0 8000000000000000 1\n\
    from_planes: 81 30000 0 0 0 0 0 4000000000000000\n\
    from_planes: 706050403020100 f0e0d0c0b0a0908 1716151413121110 1f1e1d1c1b1a1918 \
    2726252423222120 2f2e2d2c2b2a2928 3736353433323130 3f3e3d3c3b3a3938\n\
    words: 81 30000 0 0 0 0 0 4000000000000000\n";

/// What it prints of tiles, and of subwords.
const TILES: &str = "\
    tile_transpose 7f090909010100\n\
    tile_turn_left fe909090808000\n\
    tile_turn_right 1010909097f00\n\
    tile_mirror_columns 202021e02027e\n\
    tile_mirror_rows 7e40407840404000\n";
const SUBWORDS: &str = "\
    check 0 12e454c896acd88\n\
    excheck 0 3d4c0123798889ab\n\
    mix_left 0 122436485a6c7e8\n\
    mix_right 0 89abcdef5b6a7988\n\
    exchange 0 2138a9b4657cedf\n\
    check 12 0\n\
    excheck 12 0\n\
    mix_left 12 0\n\
    mix_right 12 0\n\
    exchange 12 0\n";

/// What it prints of planes of pixels.
const PIXELS: &str = "\
    despeckle 0: 1 8000000000000000 1 0 7\n\
    despeckle 0: 0 8000000000000000 4000000000000000 0 7\n\
    despeckle 0: 1 8000000000000000 0 0 7\n\
    despeckle 9: 1 8000000000000000 0 0 7\n\
    despeckle 9: 1 8000000000000000 0 0 7\n\
    despeckle 10: 1 8000000000000000 0 0 7\n\
    despeckle 10: 1 8000000000000000 0 0 7\n\
    despeckle 10: 1 8000000000000000 0 0 7\n\
    despeckle 13: 1 8000000000000000 0 0 7\n\
    despeckle 13: 1 8000000000000000 0 0 7\n\
    despeckle 10: 1 8000000000000000 0 0 7\n\
    despeckle 13: 1 8000000000000000 0 0 7\n\
    despeckle 13: 1 8000000000000000 0 0 7\n\
    despeckle 10: 1 8000000000000000 0 0 7\n\
    despeckle 10: 1 8000000000000000 0 0 7\n\
    plane: 1 8000000000000000 4000000000000005 0\n";

/// What it prints of the register unit.
const UNIT: &str = "\
    ends 0 1 2\n\
    write 0\n\
    write 0\n\
    run 0 1 2 3: 1a 1\n\
    run 0 2 1 2: 0 2\n\
    run 4 0 0 0: 0 6\n\
    run 0 1 0 0: 0 7\n\
    run 0 2 0 0: 0 7\n\
    operate 0 3: 7ffffffffffffffa 7\n\
    operate 7 0: 7ffffffffffffffa 7\n\
    operate 8 0: 7ffffffffffffffa 7\n\
    read 0 ad\n\
    read 8 0\n\
    write 8\n\
    list: 8 0 0 3 3 1 2 3\n";

/// What it prints of a run that waits, and of what the bank remembers, whose sizes come first.
const WAITING: &str = "\
    sizes 1 4 4096\n\
    waits 0 0: 0 0 0 0 0 0 0 0\n\
    continue 14 0 0 0: 0 4\n\
    run 0 2 1 2: 0 6\n\
    waits 1 4: 3 1 2 3 0 0 0 0\n\
    operate 14 0: 0 6\n\
    operate 8 0: 0 6\n\
    run 14 0 0 0: 0 6\n\
    continue 14 0 0 0: 0 6\n\
    continue 4 0 0 0: 0 6\n\
    write 0\n\
    continue 0 2 0 0: 0 6\n\
    waits 1 4: 3 1 2 3 0 0 0 0\n\
    continue 0 1 1 1: 1f 7\n\
    waits 0 4: 3 1 2 3 0 0 0 0\n\
    continue 14 0 0 0: 1f 7\n\
    run 0 2 0 0: 1f 7\n\
    waits 1 8: 8 0 0 3 3 1 2 3\n\
    waits 0 8: 8 0 0 3 3 1 2 3\n\
    continue 14 0 0 0: 1f 7\n\
    continue 0 1 0 0: 1f 7\n\
    waits 0 0: 8 0 0 3 3 1 2 3\n";

/// What it prints of frames, after the sizes of the answer's fields: for each channel its answer
/// and its status, then register 1 of channels 0 and 2. The list has operations of 2 cycles and
/// of 1.
const FRAMES: &str = "\
    sizes 1 1 4 4\n\
    frame 15: 0 0 0 4, 0 0 0 4, 0 0 0 4, 0 0 0 4, 0 0\n\
    frame 7: 0 0 0 4, 0 0 0 4, 0 0 0 4, 0 0 0 4, 0 0\n\
    frame 0: 1 2 3 5, 1 0 0 5, 2 0 0 6, 1 0 0 5, 1a 0\n\
    waits 0 0: 0 0 0 0 0 0 0 0\n\
    waits 1 8: 8 0 0 3 3 1 2 3\n\
    frame 14: 0 0 0 5, 0 0 0 5, 0 0 0 6, 0 0 0 5, 1a 0\n\
    frame 0: 1 0 0 5, 2 0 0 7, 1 2 3 7, 1 0 0 5, 1a 1a\n\
    waits 1 8: 8 0 0 3 3 1 2 3\n\
    frame 0: 1 0 0 5, 1 2 3 7, 1 2 3 7, 1 0 0 5, 1a 1a\n\
    frame 15: 0 0 0 5, 0 0 0 7, 0 0 0 7, 0 0 0 5, 1a 1a\n\
    list: 8 0 0 3 3 1 2 3\n\
    guarantees: 0 4294967295 4294967295 2\n";

/// What it prints of both bytes as they are held, of the status and of the line.
const POLLING: &str = "\
    statuses 1 2 4\n\
    fresh: 0 0: 0 0\n\
    enable: 0 f6: 0 0\n\
    run: 1 f6: 1 0\n\
    run: 5 f6: 5 1\n\
    acknowledge: 1 f6: 1 0\n\
    status: f8 f6: 0 0\n\
    run: fc f6: 4 1\n\
    enable: fc 1: 4 0\n\
    acknowledge: 0 1: 0 0\n";

/// How the command lines begin that compile C, C++, and C without its library.
const C: [&str; 4] = ["cc", "-std=c99", "-x", "c"];
const CPP: [&str; 4] = ["c++", "-std=c++11", "-x", "c++"];
const FREESTANDING: [&str; 5] = ["cc", "-Os", "-ffreestanding", "-nostdlib", "-static"];

/// Where a program of the tests lies, or its source.
fn temporary(name: &str) -> PathBuf {
    Path::new(env!("CARGO_TARGET_TMPDIR")).join(name)
}

/// A source beside the tests.
fn source(name: &str) -> PathBuf {
    Path::new(CRATE).join("tests/c").join(name)
}

/// Compiles a file with the archive into a program of this name, by a command
/// line that begins so.
fn compile(begin: &[&str], file: &Path, name: &str) -> PathBuf {
    let program = temporary(name);
    let status = Command::new(begin[0])
        .args(&begin[1..])
        .args(["-Wall", "-Wextra", "-Werror", "-pedantic"])
        .arg(format!("-I{CRATE}/../../include"))
        .arg(file)
        .args(["-x", "none", env!("TIGBAYON_ARCHIVE")])
        .arg("-o")
        .arg(&program)
        .status()
        .expect("the compiler starts");
    assert!(status.success(), "{begin:?}");
    program
}

/// What a command prints.
fn printed(command: &mut Command) -> String {
    let output = command.output().expect("the program starts");
    assert!(output.status.success(), "{command:?}");
    String::from_utf8(output.stdout).expect("ASCII")
}

/// Each struct's size and alignment, and the offsets of its fields.
fn layouts() -> String {
    macro_rules! layout {
        ($name:ident, $($field:ident),+) => {
            format!(
                "{} {} {}: {}\n",
                stringify!($name),
                size_of::<$name>(),
                align_of::<$name>(),
                [$(offset_of!($name, $field).to_string()),+].join(" ")
            )
        };
    }
    layout!(TbGathered, refusal, count, word)
        + &layout!(TbCarried, refusal, word)
        + &layout!(TbPrepared, refusal, swaps)
        + &layout!(TbControls1, refusal, stages)
        + &layout!(TbControls2, refusal, butterfly, inverse)
        + &layout!(TbMasks, refusal, masks)
        + &layout!(TbPacked, refusal, count, bits)
        + &layout!(TbPlanes, words)
        + &layout!(TbBank, general, b, ib, status, enable, waiting, left, list)
        + &layout!(TbCycles, refusal, cycles)
        + &layout!(TbRun, refusal, end, ran, cycles)
        + &layout!(TbChannel, end, ran, cycles)
        + &layout!(TbFrame, refusal, channels)
        + &layout!(TbRegister, refusal, value)
}

fn expected() -> String {
    let numbers = Refusal::ALL.map(|refusal| format!(" {}", refusal.number()));
    let answers = "\
        gather 0 5 1a\n\
        scatter 0 5 a4\n\
        group 0 5 7a\n\
        gather 1 0 0\n\
        scatter 2 0 0\n\
        group 0 64 5\n\
        gather 0 0 0\n\
        group 2 0 0\n\
        decode 0 7 1 5 0 0 0 5 1 7 0 0 0\n\
        decode 0 0 0 0 0 0 0 0 0 0 0 0 0\n\
        decode 2 0 0 0 0 0 0 0 0 0 0 0 0\n\
        butterfly 0 80\n\
        butterfly 3 0\n\
        inverse 0 1a\n\
        inverse 1 0\n\
        route 0 f f f 0 0 0 0 0 0 0 0 0\n\
        route 0 d f f 0 0 0 b f d 0 0 0\n\
        route_butterfly 6 0 0 0 0 0 0\n\
        route_inverse 6 0 0 0 0 0 0\n\
        route_butterfly 0 e f f 0 0 0\n\
        route_inverse 0 f f e 0 0 0\n\
        route 1 0 0 0 0 0 0 0 0 0 0 0 0\n\
        route 5 0 0 0 0 0 0 0 0 0 0 0 0\n\
        route 4 0 0 0 0 0 0 0 0 0 0 0 0\n\
        route_butterfly 4 0 0 0 0 0 0\n\
        route_inverse 4 0 0 0 0 0 0\n\
        permutation 0 4 2 3 1 5 6 7\n";
    let numbers = format!("numbers 0{}\n", numbers.concat());
    let calls = [
        GROUPS, PREPARED, PACKING, PLANES, TILES, SUBWORDS, PIXELS, UNIT, WAITING, FRAMES, POLLING,
    ];
    layouts() + &numbers + answers + &calls.concat()
}

fn interface(begin: &[&str]) -> String {
    let name = format!("interface-{}", begin[0]);
    printed(&mut Command::new(compile(
        begin,
        &source("interface.c"),
        &name,
    )))
}

#[test]
fn in_c99() {
    assert_eq!(interface(&C), expected());
}

#[test]
fn in_cpp() {
    assert_eq!(interface(&CPP), expected());
}

/// What keeps a bank elsewhere goes by this, and by the size that the header says.
#[test]
fn a_bank_has_4280_bytes() {
    assert!(layouts().contains("TbBank 4280 8: 0 128 152 176 177 178 180 184\n"));
    assert!(HEADER.contains("Any bytes are accepted in a bank. It has 4,280 of them."));
}

/// An answer of 52 bytes comes back by a pointer that the caller hands over.
#[test]
fn a_frame_answers_52_bytes() {
    assert!(layouts().contains("TbChannel 12 4: 0 4 8\nTbFrame 52 4: 0 4\n"));
}

/// The header and the wrapper say what refusals 14 and 15 are by the paper's words, whose F is
/// the cycles of the frame.
#[test]
fn refusals_14_and_15_are_the_papers() {
    let waiting = "another run waits, or none does, or the list is not the remainder";
    let above = "the guarantees sum above F".replace('F', "the cycles of the frame");
    let words = |text: &str| text.split_whitespace().collect::<Vec<_>>().join(" ");
    let expected =
        format!("TB_REFUSAL_WAITING = 14, /* {waiting} */ TB_REFUSAL_FRAME = 15 /* {above} */");
    assert!(words(HEADER).contains(&expected));
    let shown = [Refusal::Waiting, Refusal::Frame].map(|refusal| refusal.to_string());
    let expected = [
        format!("refusal 14: {waiting}"),
        format!("refusal 15: {above}"),
    ];
    assert_eq!(shown, expected);
}

/// The repository's README shows how to link; its program prints what it says.
#[test]
fn readme() {
    let (_, rest) = README.split_once("```c\n").expect("a program in C");
    let (program, _) = rest.split_once("```").expect("its end");
    let file = temporary("readme.c");
    fs::write(&file, program).expect("a file");
    let program = compile(&C, &file, "readme");
    assert_eq!(printed(&mut Command::new(program)), "123456789abc 48\n");
}

/// Of the C library the archive needs memcpy and memset alone.
#[cfg(target_os = "linux")]
#[test]
fn without_a_c_library() {
    let program = compile(&FREESTANDING, &source("freestanding.c"), "freestanding");
    assert_eq!(printed(&mut Command::new(program)), "");
}

/// A program has of the archive what it calls. That it stays below 1 KB is in the
/// README, with the command.
#[cfg(target_os = "linux")]
#[test]
fn no_more_than_is_called() {
    let sections = ["-ffunction-sections", "-Wl,--gc-sections"];
    let begin = [&FREESTANDING[..], &sections].concat();
    assert!(README.contains(&begin.join(" ")));
    let program = compile(&begin, &source("freestanding.c"), "collected");
    assert_eq!(printed(&mut Command::new(&program)), "");
    let sizes = printed(Command::new("size").arg(program));
    let text = sizes
        .lines()
        .nth(1)
        .and_then(|sizes| sizes.split_whitespace().next());
    let text: u32 = text.expect("a size").parse().expect("a number");
    assert!(text < 1_024, "{sizes}");
}
