//! Bit planes: what is printed, and drawings in characters, read back.

mod support;

use conformance::samples::{any_eight, Random};
use support::{hex_list, prints, read_words};

/// The planes of a drawing, each with its number.
fn read_drawn(drawn: &str) -> Vec<(usize, u64)> {
    let lines: Vec<&str> = drawn.lines().collect();
    assert_eq!(lines.len(), 9, "{drawn}");
    let numbers = lines[0].split("plane ").skip(1);
    let numbers = numbers.map(|number| number.trim().parse().unwrap());
    let mut planes: Vec<(usize, u64)> = numbers.map(|number| (number, 0)).collect();
    for (k, line) in lines[1..].iter().enumerate() {
        let rows: Vec<&str> = line.split("  ").collect();
        assert_eq!(rows.len(), planes.len(), "{drawn}");
        for ((_, plane), row) in planes.iter_mut().zip(rows) {
            assert_eq!(row.len(), 8, "{drawn}");
            for (i, dot) in row.chars().enumerate() {
                assert!(['#', '.'].contains(&dot), "{drawn}");
                *plane |= u64::from(dot == '#') << (8 * k + i);
            }
        }
    }
    planes
}

/// Worked out by hand from request 03 of paper 02.
#[test]
fn rows() {
    for (words, planes) in [
        (
            "0x81,0x30000,0x0,0x0,0x0,0x0,0x0,0x0",
            "0x401,0x400,0x0,0x0,0x0,0x0,0x0,0x1",
        ),
        (
            "0x0,0x0,0x0,0x0,0x0,0x0,0x0,0x8000000000000000",
            "0x0,0x0,0x0,0x0,0x0,0x0,0x0,0x8000000000000000",
        ),
        (
            "0xFF,0x0,0x0,0x0,0x0,0x0,0x0,0x0",
            "0x1,0x1,0x1,0x1,0x1,0x1,0x1,0x1",
        ),
        (
            "0xFFFFFFFFFFFFFFFF,0x0,0x0,0x0,0x0,0x0,0x0,0x1",
            "0x1000000000000FF,0xFF,0xFF,0xFF,0xFF,0xFF,0xFF,0xFF",
        ),
    ] {
        assert_eq!(prints(&["planes", words]), format!("{planes}\n"));
        assert_eq!(prints(&["bytes", planes]), format!("{words}\n"));
    }
}

#[test]
fn what_is_printed_can_be_given_again() {
    let mut random = Random::default();
    for _ in 0..50 {
        let words = any_eight(&mut random);
        for [there, back] in [["planes", "bytes"], ["bytes", "planes"]] {
            let converted = prints(&[there, &hex_list(&words)]);
            let again = prints(&[back, converted.trim_end()]);
            assert_eq!(read_words(&again), words);
        }
    }
}

#[test]
fn words_in_one_argument_or_many() {
    let printed = prints(&["planes", "1,2,3,4,5,6,7,8"]);
    assert_eq!(prints(&["planes", "1 2 3 4 5 6 7 8"]), printed);
    let args = ["planes", "1", "2", "3", "4", "5", "6", "7", "8"];
    assert_eq!(prints(&args), printed);
}

#[test]
fn drawings_show_the_planes() {
    let mut random = Random::default();
    for _ in 0..50 {
        let words = hex_list(&any_eight(&mut random));
        let planes = read_words(&prints(&["planes", &words]));
        let numbered: Vec<(usize, u64)> = planes.into_iter().enumerate().collect();
        assert_eq!(read_drawn(&prints(&["planes", &words, "--text"])), numbered);
        let (p, plane) = numbered[random.below(8) as usize];
        let alone = ["planes", &words, "--plane", &p.to_string()];
        assert_eq!(read_drawn(&prints(&alone)), [(p, plane)]);
        let both = [&alone[..], &["--text"]].concat();
        assert_eq!(prints(&both), prints(&alone));
    }
}
