//! The 24 packing operations of document 000, Figure 6, and the 24 merging
//! operations of its Figure 7, by its equations: carried out line by line they
//! answer as the calls do.
//!
//! The document counts bits and fields from the high end of a register, we from
//! the low end. Its first field is our lowest: what pack takes from its first
//! source fills our low half, and mergeh takes the fields of our low half. High
//! and low halves of one field are those of its value, and so the same. Its s0 to
//! s7 are words 0 to 7. Its bit0 is the high bit of each byte, our plane 7, and so
//! on down to bit7, our plane 0. Each figure is tried in either order of counting.

use conformance::planes::{Conversion, Words, FROM_PLANES, TO_PLANES};
use conformance::samples::{any_eight, random_eight, Random};
use std::collections::HashMap;
use Half::{H, L};
use Order::{FromHigh, FromLow};

/// High or low: the half of every field that pack keeps, and in Figure 7 mergeh or
/// mergel, which take the first or the second half of a register's fields.
#[derive(Clone, Copy, Debug, PartialEq, Eq)]
enum Half {
    H,
    L,
}

/// A line of a figure: what it makes, the n of `simd<n>`, the half, two sources.
type Step = (&'static str, usize, Half, [&'static str; 2]);

/// Figure 6: `simd<n>::pack<h,h>` or `simd<n>::pack<l,l>`.
const PACKING: [Step; 24] = [
    ("hnybble0", 8, H, ["s0", "s1"]),
    ("lnybble0", 8, L, ["s0", "s1"]),
    ("hnybble1", 8, H, ["s2", "s3"]),
    ("lnybble1", 8, L, ["s2", "s3"]),
    ("hnybble2", 8, H, ["s4", "s5"]),
    ("lnybble2", 8, L, ["s4", "s5"]),
    ("hnybble3", 8, H, ["s6", "s7"]),
    ("lnybble3", 8, L, ["s6", "s7"]),
    ("hh_pair0", 4, H, ["hnybble0", "hnybble1"]),
    ("hl_pair0", 4, L, ["hnybble0", "hnybble1"]),
    ("lh_pair0", 4, H, ["lnybble0", "lnybble1"]),
    ("ll_pair0", 4, L, ["lnybble0", "lnybble1"]),
    ("hh_pair1", 4, H, ["hnybble2", "hnybble3"]),
    ("hl_pair1", 4, L, ["hnybble2", "hnybble3"]),
    ("lh_pair1", 4, H, ["lnybble2", "lnybble3"]),
    ("ll_pair1", 4, L, ["lnybble2", "lnybble3"]),
    ("bit0", 2, H, ["hh_pair0", "hh_pair1"]),
    ("bit1", 2, L, ["hh_pair0", "hh_pair1"]),
    ("bit2", 2, H, ["hl_pair0", "hl_pair1"]),
    ("bit3", 2, L, ["hl_pair0", "hl_pair1"]),
    ("bit4", 2, H, ["lh_pair0", "lh_pair1"]),
    ("bit5", 2, L, ["lh_pair0", "lh_pair1"]),
    ("bit6", 2, H, ["ll_pair0", "ll_pair1"]),
    ("bit7", 2, L, ["ll_pair0", "ll_pair1"]),
];

/// Figure 7: `simd<n>::mergeh` or `simd<n>::mergel`.
const MERGING: [Step; 24] = [
    ("bit01_r0", 1, H, ["bit0", "bit1"]),
    ("bit01_r1", 1, L, ["bit0", "bit1"]),
    ("bit23_r0", 1, H, ["bit2", "bit3"]),
    ("bit23_r1", 1, L, ["bit2", "bit3"]),
    ("bit45_r0", 1, H, ["bit4", "bit5"]),
    ("bit45_r1", 1, L, ["bit4", "bit5"]),
    ("bit67_r0", 1, H, ["bit6", "bit7"]),
    ("bit67_r1", 1, L, ["bit6", "bit7"]),
    ("bit0123_r0", 2, H, ["bit01_r0", "bit23_r0"]),
    ("bit0123_r1", 2, L, ["bit01_r0", "bit23_r0"]),
    ("bit0123_r2", 2, H, ["bit01_r1", "bit23_r1"]),
    ("bit0123_r3", 2, L, ["bit01_r1", "bit23_r1"]),
    ("bit4567_r0", 2, H, ["bit45_r0", "bit67_r0"]),
    ("bit4567_r1", 2, L, ["bit45_r0", "bit67_r0"]),
    ("bit4567_r2", 2, H, ["bit45_r1", "bit67_r1"]),
    ("bit4567_r3", 2, L, ["bit45_r1", "bit67_r1"]),
    ("s0", 4, H, ["bit0123_r0", "bit4567_r0"]),
    ("s1", 4, L, ["bit0123_r0", "bit4567_r0"]),
    ("s2", 4, H, ["bit0123_r1", "bit4567_r1"]),
    ("s3", 4, L, ["bit0123_r1", "bit4567_r1"]),
    ("s4", 4, H, ["bit0123_r2", "bit4567_r2"]),
    ("s5", 4, L, ["bit0123_r2", "bit4567_r2"]),
    ("s6", 4, H, ["bit0123_r3", "bit4567_r3"]),
    ("s7", 4, L, ["bit0123_r3", "bit4567_r3"]),
];

/// Words 0 to 7.
const WORDS: [&str; 8] = ["s0", "s1", "s2", "s3", "s4", "s5", "s6", "s7"];

/// Planes 0 to 7.
const PLANES: [&str; 8] = [
    "bit7", "bit6", "bit5", "bit4", "bit3", "bit2", "bit1", "bit0",
];

/// A figure, and the call that it is for.
struct Figure {
    steps: [Step; 24],
    operation: fn(Order, usize, Half, [u64; 2]) -> u64,
    from: [&'static str; 8],
    to: [&'static str; 8],
    call: Conversion,
}

const FIGURES: [Figure; 2] = [
    Figure {
        steps: PACKING,
        operation: Order::pack,
        from: WORDS,
        to: PLANES,
        call: TO_PLANES,
    },
    Figure {
        steps: MERGING,
        operation: Order::merge,
        from: PLANES,
        to: WORDS,
        call: FROM_PLANES,
    },
];

impl Figure {
    /// Carries the steps out in turn, each with two sources and one result.
    fn carried_out(&self, order: Order, words: Words) -> Words {
        let mut registers: HashMap<&str, u64> = self.from.into_iter().zip(words).collect();
        for (makes, n, half, sources) in self.steps {
            let sources = sources.map(|source| registers[source]);
            let made = (self.operation)(order, n, half, sources);
            assert_eq!(registers.insert(makes, made), None, "{makes} is made once");
        }
        self.to.map(|name| registers[name])
    }

    /// The same figure, one of its steps changed.
    fn with(mut self, number: usize, change: fn(&mut Step)) -> Self {
        change(&mut self.steps[number]);
        self
    }
}

/// From which end of a register bits and fields are counted.
#[derive(Clone, Copy, Debug)]
enum Order {
    FromLow,
    FromHigh,
}

impl Order {
    /// Where field i of so many bits has its lowest bit.
    fn place(self, bits: usize, i: usize) -> usize {
        match self {
            FromLow => i * bits,
            FromHigh => 64 - (i + 1) * bits,
        }
    }

    /// The fields of a register, in order.
    fn fields(self, bits: usize, register: u64) -> Vec<u64> {
        let field = |i| register >> self.place(bits, i) & ((1 << bits) - 1);
        (0..64 / bits).map(field).collect()
    }

    /// The register that has these fields.
    fn register(self, bits: usize, fields: &[u64]) -> u64 {
        assert_eq!(fields.len() * bits, 64);
        let placed = fields.iter().enumerate();
        let placed = placed.map(|(i, field)| field << self.place(bits, i));
        placed.sum()
    }

    /// Equations 4, 5, 7 and 8: r[i] is the half of a[i] for i below N/n, and that
    /// of b[i - N/n] from there on.
    fn pack(self, n: usize, half: Half, [a, b]: [u64; 2]) -> u64 {
        let kept = |field: u64| match half {
            H => field / (1 << (n / 2)),
            L => field % (1 << (n / 2)),
        };
        let fields = [self.fields(n, a), self.fields(n, b)].concat();
        let halves: Vec<u64> = fields.into_iter().map(kept).collect();
        self.register(n / 2, &halves)
    }

    /// Equations 9 and 10: r[i] = a[i] × 2^n + b[i], or a[i + N/(2n)] × 2^n +
    /// b[i + N/(2n)].
    fn merge(self, n: usize, half: Half, [a, b]: [u64; 2]) -> u64 {
        let (a, b) = (self.fields(n, a), self.fields(n, b));
        let count = 64 / (2 * n);
        let start = if half == H { 0 } else { count };
        let merged = (start..start + count).map(|i| a[i] * (1 << n) + b[i]);
        self.register(2 * n, &merged.collect::<Vec<_>>())
    }
}

fn for_each_sample(test: impl Fn(Words)) {
    let mut random = Random::default();
    for _ in 0..2_000 {
        test(any_eight(&mut random));
    }
}

/// "Source document 000 does it in three stages, 24 packing operations in all":
/// "its field width (8, 4 or 2)".
#[test]
fn three_stages_of_eight() {
    let widths = PACKING.map(|(_, width, ..)| width);
    assert_eq!(widths.as_slice(), [[8; 8], [4; 8], [2; 8]].as_flattened());
    let widths = MERGING.map(|(_, width, ..)| width);
    assert_eq!(widths.as_slice(), [[1; 8], [2; 8], [4; 8]].as_flattened());
}

/// "The first source's halves, in order, fill the low half of the result, the
/// second's the high half."
#[test]
fn packing_by_hand() {
    let sources = [0x0706_0504_0302_0100, 0xFEDC_BA98_7654_3210];
    assert_eq!(FromLow.pack(8, L, sources), 0xECA8_6420_7654_3210);
    assert_eq!(FromLow.pack(8, H, sources), 0xFDB9_7531_0000_0000);
    assert_eq!(FromLow.pack(4, H, [0x8C, 0x48]), 0x6_0000_000B);
    assert_eq!(FromLow.pack(2, L, [0b10_01_11, 0]), 0b011);
    assert_eq!(FromLow.pack(2, H, [0, 0b10_01_11]), 0b101 << 32);
}

#[test]
fn merging_by_hand() {
    assert_eq!(FromLow.merge(4, H, [0x10, 0x32]), 0x1302);
    assert_eq!(FromLow.merge(4, L, [0x10 << 32, 0x32 << 32]), 0x1302);
    assert_eq!(FromLow.merge(1, H, [0b01, 0b11]), 0b01_11);
    assert_eq!(FromLow.merge(2, L, [0, 1 << 63]), 0b0010 << 60);
}

#[test]
fn each_figure_answers_as_its_call() {
    for_each_sample(|words| {
        for figure in FIGURES {
            let result = figure.carried_out(FromLow, words);
            assert_eq!(result, figure.call.check(words), "{}", figure.call.name);
        }
    });
}

/// As they are printed: byte 0 stands in the high end of s0 there, and the bit of
/// byte 0 in the high end of bit0 to bit7.
#[test]
fn each_figure_counted_from_the_high_end() {
    type Turn = fn(u64) -> u64;
    let turned: [[Turn; 2]; 2] = [
        [u64::swap_bytes, u64::reverse_bits],
        [u64::reverse_bits, u64::swap_bytes],
    ];
    for_each_sample(|words| {
        for (figure, [put, taken]) in FIGURES.into_iter().zip(turned) {
            let result = figure.carried_out(FromHigh, words.map(put)).map(taken);
            assert_eq!(result, figure.call.check(words), "{}", figure.call.name);
        }
    });
}

/// With one step that keeps or takes the other half, or has its sources exchanged,
/// either figure answers otherwise.
#[test]
fn no_step_may_be_another() {
    let changes: [fn(&mut Step); 2] = [
        |(_, _, half, _)| *half = if *half == H { L } else { H },
        |(.., sources)| sources.reverse(),
    ];
    let words = random_eight(&mut Random::default());
    for number in 0..24 {
        for change in changes {
            for figure in FIGURES.map(|figure| figure.with(number, change)) {
                let result = figure.carried_out(FromLow, words);
                assert_ne!(result, figure.call.check(words), "step {number}");
            }
        }
    }
}
