//! Tables 1 to 3 of document 002, line by line as they are printed, and the lines of
//! Tables 4 and 5 that exchange. A letter is eight bits, and a the leftmost. At a letter
//! of 1, 2 or 4 bits the lines hold of each eight letters of a word, at a size as much
//! smaller.

use conformance::call::{Call, CHECK, EXCHANGE, EXCHECK, MIX_LEFT, MIX_RIGHT};
use conformance::low_ones;
use conformance::samples::{for_each, Random};
use std::collections::BTreeSet;

/// "R1 = a b c d e f g h"
const R1: &str = "a b c d e f g h";

/// "R2 = A B C D E F G H"
const R2: &str = "A B C D E F G H";

/// How many bits a letter has, as printed and scaled down.
const LETTERS: [u32; 4] = [8, 4, 2, 1];

/// Tables 1 and 2: the instruction, its size, and R3.
const DEFINITIONS: [(&str, u32, &str); 15] = [
    ("mixL", 8, "a A c C e E g G"),
    ("mixR", 8, "b B d D f F h H"),
    ("mixL", 16, "a b A B e f E F"),
    ("mixR", 16, "c d C D g h G H"),
    ("mixL", 32, "a b c d A B C D"),
    ("mixR", 32, "e f g h E F G H"),
    ("check", 8, "a B c D e F g H"),
    ("check", 16, "a b C D e f G H"),
    ("check", 32, "a b c d E F G H"),
    ("exchange", 8, "b a d c f e h g"),
    ("exchange", 16, "c d a b g h e f"),
    ("exchange", 32, "e f g h a b c d"),
    ("excheck", 8, "B a D c F e H g"),
    ("excheck", 16, "C D a b G H e f"),
    ("excheck", 32, "E F G H a b c d"),
];

/// Table 3: each case's results, R3 and R4, and the instructions used.
const CASES: [(&str, [&str; 2], [&str; 2]); 24] = [
    ("1(a)", [R1, R2], ["R1", "R2"]),
    ("1(b)", [R1, "B A D C F E H G"], ["R1", "exchange(R2)"]),
    (
        "2(a)",
        ["a B c D e F g H", MISPRINTED],
        ["check(R1,R2)", "check(R2,R1)"],
    ),
    (
        "2(b)",
        ["a B c D e F g H", "b A d C f E h G"],
        ["check(R1,R2)", "excheck(R2,R1)"],
    ),
    (
        "3(a)",
        ["a A c C e E g G", "b B d D f F h H"],
        ["mixL(R1,R2)", "mixR(R1,R2)"],
    ),
    (
        "3(b)",
        ["a A c C e E g G", "B b D d F f H h"],
        ["mixL(R1,R2)", "mixR(R2,R1)"],
    ),
    ("4(a)", ["b a d c f e h g", R2], ["exchange(R1)", "R2"]),
    (
        "4(b)",
        ["b a d c f e h g", "B A D C F E H G"],
        ["exchange(R1)", "exchange(R2)"],
    ),
    (
        "5(a)",
        ["b B d D f F h H", "A a C c E e G g"],
        ["mixR(R1,R2)", "mixL(R2,R1)"],
    ),
    (
        "5(b)",
        ["b B d D f F h H", "a A c C e E g G"],
        ["mixR(R1,R2)", "mixL(R1,R2)"],
    ),
    (
        "6(a)",
        ["b A d C f E h G", "a B c D e F g H"],
        ["excheck(R2,R1)", "check(R1,R2)"],
    ),
    (
        "6(b)",
        ["b A d C f E h G", "B a D c F e H g"],
        ["excheck(R2,R1)", "excheck(R1,R2)"],
    ),
    (
        "7(a)",
        ["A a C c E e G g", "b B d D f F h H"],
        ["mixL(R2,R1)", "mixR(R1,R2)"],
    ),
    (
        "7(b)",
        ["A a C c E e G g", "B b D d F f H h"],
        ["mixL(R2,R1)", "mixR(R2,R1)"],
    ),
    (
        "8(a)",
        ["A b C d E f G h", "a B c D e F g H"],
        ["check(R2,R1)", "check(R1,R2)"],
    ),
    (
        "8(b)",
        ["A b C d E f G h", "B a D c F e H g"],
        ["check(R2,R1)", "excheck(R1,R2)"],
    ),
    ("9(a)", [R2, R1], ["R2", "R1"]),
    ("9(b)", [R2, "b a d c f e h g"], ["R2", "exchange(R1)"]),
    (
        "10(a)",
        ["B a D c F e H g", "A b C d E f G h"],
        ["excheck(R1,R2)", "check(R2,R1)"],
    ),
    (
        "10(b)",
        ["B a D c F e H g", "b A d C f E h G"],
        ["excheck(R1,R2)", "excheck(R2,R1)"],
    ),
    (
        "11(a)",
        ["B b D d F f H h", "a A c C e E g G"],
        ["mixR(R2,R1)", "mixL(R1,R2)"],
    ),
    (
        "11(b)",
        ["B b D d F f H h", "A a C c E e G g"],
        ["mixR(R2,R1)", "mixL(R2,R1)"],
    ),
    ("12(a)", ["B A D C F E H G", R1], ["exchange(R2)", "R1"]),
    (
        "12(b)",
        ["B A D C F E H G", "b a d c f e h g"],
        ["exchange(R2)", "exchange(R1)"],
    ),
];

/// R4 of case 2(a), as it is printed: where its fifth letter stands, E belongs, as
/// the instruction and case 10(a) have it.
const MISPRINTED: &str = "A b C d e f G h";

/// The same, put right.
const CORRECTED: &str = "A b C d E f G h";

/// Table 4, the line of type exchange: `permute,8,10325476 R1, Rt`, and Rt.
const PERMUTE: (&str, &str) = ("10325476", "b a d c f e h g");

/// Table 5, the line of type exchange: `permset, 8,4,1032 R1, Rt`.
const PERMSET: &str = "1032";

/// The letters of a line, put right.
fn letters(line: &str) -> Vec<char> {
    let line = if line == MISPRINTED { CORRECTED } else { line };
    let letters = line.split(' ').map(|letter| letter.chars().next());
    letters.map(|letter| letter.expect("a letter")).collect()
}

/// The word of these letters, of so many bits each, where `first` and `second` have
/// those of R1 and of R2. Each eight letters of the word are of the same line.
fn word_of(line: &str, bits: u32, first: u64, second: u64) -> u64 {
    let groups = 8 / bits;
    let mut word = 0;
    for group in 0..groups {
        for letter in letters(line) {
            let (source, number) = match letter {
                'a'..='h' => (first, letter as u32 - 'a' as u32),
                _ => (second, letter as u32 - 'A' as u32),
            };
            let from_left = 8 * group + number;
            let value = source >> (64 - bits * (from_left + 1)) & low_ones(bits);
            word = word << bits | value;
        }
    }
    word
}

/// The call that the document names so; exchange is of its first source.
fn called(name: &str, size: u32, first: u64, second: u64) -> u64 {
    let by = |call: Call<u64>| call.result(size, first, second);
    match name {
        "mixL" => by(MIX_LEFT),
        "mixR" => by(MIX_RIGHT),
        "check" => by(CHECK),
        "excheck" => by(EXCHECK),
        "exchange" => EXCHANGE.result(size, first, ()),
        _ => panic!("{name} is none of them"),
    }
}

/// What an instruction of Table 3 makes: a register, or a call of one or two.
fn carried_out(instruction: &str, size: u32, first: u64, second: u64) -> u64 {
    let register = |name: &str| match name {
        "R1" => first,
        "R2" => second,
        _ => panic!("{name} is no register"),
    };
    let Some((name, sources)) = instruction.split_once('(') else {
        return register(instruction);
    };
    let sources = sources.trim_end_matches(')').split(',');
    let sources: Vec<u64> = sources.map(register).collect();
    called(name, size, sources[0], sources[sources.len() - 1])
}

/// Hands words of every pair of shapes to `test`, with each number of bits that a
/// letter can have.
fn for_each_sample(test: impl Fn(u32, u64, u64)) {
    for bits in LETTERS {
        for_each(64, 4, |first, second| test(bits, first, second));
    }
}

/// The letters as they are printed: a is the leftmost eight bits.
#[test]
fn letters_by_hand() {
    let [first, second] = [*b"abcdefgh", *b"ABCDEFGH"].map(u64::from_be_bytes);
    for (line, word) in [(R1, *b"abcdefgh"), ("a B c D e F g H", *b"aBcDeFgH")] {
        assert_eq!(word_of(line, 8, first, second).to_be_bytes(), word);
    }
    // Sixteen letters of four bits: two lines.
    let digits = word_of("b a d c f e h g", 4, 0x0123_4567_89AB_CDEF, 0);
    assert_eq!(digits, 0x1032_5476_98BA_DCFE);
    assert_eq!(word_of(R2, 1, 0, 0x1234), 0x1234);
}

#[test]
fn tables_1_and_2() {
    for_each_sample(|bits, first, second| {
        for (name, size, line) in DEFINITIONS {
            let result = called(name, size * bits / 8, first, second);
            let expected = word_of(line, bits, first, second);
            assert_eq!(result, expected, "{name},{size} by letters of {bits} bits");
        }
    });
}

/// Every instruction of Table 3 is at one size; the letters are subwords.
#[test]
fn table_3() {
    for_each_sample(|bits, first, second| {
        for (case, results, instructions) in CASES {
            for (line, instruction) in results.into_iter().zip(instructions) {
                let result = carried_out(instruction, bits, first, second);
                let expected = word_of(line, bits, first, second);
                assert_eq!(result, expected, "case {case}, {instruction}");
            }
        }
    });
}

/// Where the letter stands in a 2x2 matrix that has it.
fn place(matrix: [[char; 2]; 2], letter: char) -> usize {
    let mut letters = matrix.as_flattened().iter();
    letters
        .position(|&own| own == letter)
        .expect("of its matrix")
}

/// "each of the 4 elements in a resulting 2x2 matrix can be in the top left corner in
/// R3. Thereafter, each of the 3 remaining elements can be in the top right corner":
/// in each pair of columns the 24 cases permute its own four letters, each in another
/// way.
#[test]
fn table_3_has_every_permutation_once() {
    let mut seen = BTreeSet::new();
    for (case, results, _) in CASES {
        let [top, bottom] = results.map(letters);
        for column in (0..8).step_by(2) {
            let matrix = |rows: [&[char]; 2]| rows.map(|row| [row[column], row[column + 1]]);
            let given = matrix([&letters(R1), &letters(R2)]);
            let made = matrix([&top, &bottom]);
            let from = made.map(|row| row.map(|letter| place(given, letter)));
            assert!(seen.insert((column, from)), "case {case}");
        }
    }
    assert_eq!(seen.len(), 4 * 24);
}

/// As printed, both results together have e twice and E not at all, though the check
/// moves subwords and makes none.
#[test]
fn table_3_misprint() {
    let (case, [line, misprinted], [_, instruction]) = CASES[2];
    assert_eq!((case, misprinted), ("2(a)", MISPRINTED));
    let differ = MISPRINTED.chars().zip(CORRECTED.chars());
    let differ: Vec<_> = differ.filter(|(one, other)| one != other).collect();
    assert_eq!(differ, [('e', 'E')]);
    assert!(line.contains('e') && !line.contains('E'));
    let [first, second] = [*b"abcdefgh", *b"ABCDEFGH"].map(u64::from_be_bytes);
    let result = carried_out(instruction, 8, first, second);
    assert_eq!(result.to_be_bytes(), *b"AbCdEfGh");
}

/// "The subwords in the source register are numbered, and permute specifies the new
/// ordering desired in terms of this numbering"; permset repeats it "on consecutive
/// subsets of m subwords".
fn permuted(order: &str, size: u32, word: u64) -> u64 {
    let order: Vec<u32> = order
        .chars()
        .filter_map(|digit| digit.to_digit(10))
        .collect();
    let set = order.len() as u32;
    let source = |i: u32| i / set * set + order[(i % set) as usize];
    let value = |i: u32| word >> (64 - size * (i + 1)) & low_ones(size);
    (0..64 / size).fold(0, |result, i| result << size | value(source(i)))
}

#[test]
fn tables_4_and_5() {
    let mut random = Random::default();
    for _ in 0..1_000 {
        let word = random.word();
        let exchanged = EXCHANGE.result(8, word, ());
        let (order, line) = PERMUTE;
        assert_eq!(word_of(line, 8, word, 0), exchanged);
        for order in [order, PERMSET] {
            assert_eq!(permuted(order, 8, word), exchanged, "{order}");
        }
        for size in [1, 2, 4, 16] {
            let exchanged = EXCHANGE.result(size, word, ());
            assert_eq!(permuted(PERMSET, size, word), exchanged, "size {size}");
        }
    }
}
