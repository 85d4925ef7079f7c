//! Subwords: what is printed is the library's answer.

mod support;

use conformance::call::{Call, CHECK, EXCHANGE, EXCHECK, MIX_LEFT, MIX_RIGHT};
use conformance::samples::{any_word, Random};
use conformance::SIZES;
use support::prints;

/// The commands of two words.
const OF_TWO: [(&str, Call<u64>); 4] = [
    ("check", CHECK),
    ("excheck", EXCHECK),
    ("mix-left", MIX_LEFT),
    ("mix-right", MIX_RIGHT),
];

/// Letters as a word, the first the leftmost.
fn word(letters: &str) -> String {
    let bytes = letters.bytes().map(|letter| format!("{letter:X}"));
    String::from_iter(bytes)
}

/// Tables 1 and 2 of document 002.
#[test]
fn tables() {
    for (command, size, made) in [
        ("mix-left", "8", "aAcCeEgG"),
        ("mix-right", "8", "bBdDfFhH"),
        ("mix-left", "16", "abABefEF"),
        ("mix-right", "16", "cdCDghGH"),
        ("mix-left", "32", "abcdABCD"),
        ("mix-right", "32", "efghEFGH"),
        ("check", "8", "aBcDeFgH"),
        ("check", "16", "abCDefGH"),
        ("check", "32", "abcdEFGH"),
        ("excheck", "8", "BaDcFeHg"),
        ("excheck", "16", "CDabGHef"),
        ("excheck", "32", "EFGHabcd"),
    ] {
        let [first, second] = ["abcdefgh", "ABCDEFGH"].map(word);
        let printed = prints(&[command, size, &first, &second]);
        assert_eq!(printed, format!("0x{}\n", word(made)), "{command} {size}");
    }
    for (size, made) in [("8", "badcfehg"), ("16", "cdabghef"), ("32", "efghabcd")] {
        let printed = prints(&["exchange", size, &word("abcdefgh")]);
        assert_eq!(printed, format!("0x{}\n", word(made)), "{size}");
    }
}

#[test]
fn samples_of_every_size() {
    let mut random = Random::default();
    for size in SIZES {
        let [first, second] = [(); 2].map(|()| any_word(&mut random, 64));
        let given = [first, second].map(|word| format!("{word:#x}"));
        let size_given = size.to_string();
        for (command, call) in OF_TWO {
            let printed = prints(&[command, &size_given, &given[0], &given[1]]);
            let result = call.result(size, first, second);
            assert_eq!(printed, format!("{result:#X}\n"), "{command} {size}");
        }
        let printed = prints(&["exchange", &size_given, &given[0]]);
        let result = EXCHANGE.result(size, first, ());
        assert_eq!(printed, format!("{result:#X}\n"), "exchange {size}");
    }
}
