//! Every exported call on arbitrary arguments, held against its model in the
//! whole answer and in everything that is lent.

use crate::arbitrary::{any_bank, bank_for, bring_next, budget, continued, frame, list, operation};
use crate::arbitrary::{byte, controls, cut, end, length, other_length};
use crate::arbitrary::{permutation, plane, register, size, widths, word};
use crate::call::{Call, BUTTERFLY, DECODE, GATHER, GROUP, INVERSE, SCATTER};
use crate::call::{CHECK, EXCHANGE, EXCHECK, MIX_LEFT, MIX_RIGHT};
use crate::call::{PREPARE_BUTTERFLY, PREPARE_INVERSE};
use crate::call::{ROUTE, ROUTE_BUTTERFLY, ROUTE_GROUPS, ROUTE_INVERSE};
use crate::controls::Controls;
use crate::packing::{PackingCall, PACK, UNPACK};
use crate::pixels::despeckle;
use crate::planes::{turned_over, Conversion, FROM_PLANES, TO_PLANES};
use crate::prepared::{Passage, THROUGH_BUTTERFLY, THROUGH_INVERSE};
use crate::samples::{any_controls, any_eight, any_swaps, any_word, random_words, Random};
use crate::tiles::{Movement, MIRROR_COLUMNS, MIRROR_ROWS, TRANSPOSE, TURN_LEFT, TURN_RIGHT};
use crate::unit::{acknowledge, enable, interrupt, status};
use crate::unit::{continue_run, drop_run, operate, read, run, write, Bank};
use crate::WIDTHS;
use model::gather::Gathered;
use model::prepared::Swaps;
use model::refusal::NONE;
use std::fmt::{self, Debug, Display, Formatter};
use std::iter::zip;
use std::panic::{catch_unwind, resume_unwind};

/// How many refusal numbers there are, 0 among them.
const NUMBERS: usize = 16;

/// An exported call.
struct Target {
    name: &'static str,
    /// The refusal numbers that it can answer; 0 alone where it has none.
    numbers: &'static [usize],
    /// Checks it on arbitrary arguments and answers the number.
    check: fn(&mut Random) -> u8,
}

const TARGETS: [Target; 40] = [
    target("gather", &[0, 1, 2], |random| masked(random, GATHER)),
    target("scatter", &[0, 1, 2], |random| masked(random, SCATTER)),
    target("group", &[0, 1, 2], |random| masked(random, GROUP)),
    target("butterfly", &[0, 1, 2, 3], |random| {
        carried(random, BUTTERFLY)
    }),
    target("inverse", &[0, 1, 2, 3], |random| carried(random, INVERSE)),
    target("prepare_butterfly", &[0, 1, 3], |random| {
        prepared(random, PREPARE_BUTTERFLY)
    }),
    target("prepare_inverse", &[0, 1, 3], |random| {
        prepared(random, PREPARE_INVERSE)
    }),
    target("butterfly_prepared", &[0], |random| {
        passed(random, THROUGH_BUTTERFLY)
    }),
    target("inverse_prepared", &[0], |random| {
        passed(random, THROUGH_INVERSE)
    }),
    target("decode", &[0, 1, 2], |random| {
        let (handed, width) = widths(random);
        DECODE.check(handed, word(random, width), ()).refusal
    }),
    target("route", &[0, 1, 4, 5], |random| routed(random, ROUTE)),
    target("route_butterfly", &[0, 1, 4, 5, 6], |random| {
        routed(random, ROUTE_BUTTERFLY)
    }),
    target("route_inverse", &[0, 1, 4, 5, 6], |random| {
        routed(random, ROUTE_INVERSE)
    }),
    target("route_groups", &[0, 1, 4, 5], |random| {
        routed(random, ROUTE_GROUPS)
    }),
    target("pack", &[0, 9, 10], |random| packed(random, PACK, as_it_is)),
    target("unpack", &[0, 9, 10, 11], |random| {
        packed(random, UNPACK, end)
    }),
    target("to_planes", &[0], |random| {
        converted(random, TO_PLANES, FROM_PLANES)
    }),
    target("from_planes", &[0], |random| {
        converted(random, FROM_PLANES, TO_PLANES)
    }),
    target("tile_transpose", &[0], |random| {
        moved(random, TRANSPOSE, TRANSPOSE)
    }),
    target("tile_turn_left", &[0], |random| {
        moved(random, TURN_LEFT, TURN_RIGHT)
    }),
    target("tile_turn_right", &[0], |random| {
        moved(random, TURN_RIGHT, TURN_LEFT)
    }),
    target("tile_mirror_columns", &[0], |random| {
        moved(random, MIRROR_COLUMNS, MIRROR_COLUMNS)
    }),
    target("tile_mirror_rows", &[0], |random| {
        moved(random, MIRROR_ROWS, MIRROR_ROWS)
    }),
    target("check", &[0, 12], |random| paired(random, CHECK)),
    target("excheck", &[0, 12], |random| paired(random, EXCHECK)),
    target("mix_left", &[0, 12], |random| paired(random, MIX_LEFT)),
    target("mix_right", &[0, 12], |random| paired(random, MIX_RIGHT)),
    target("exchange", &[0, 12], |random| {
        let size = size(random);
        EXCHANGE.check(size, any_word(random, 64), ()).refusal
    }),
    target("despeckle", &[0, 9, 10, 13], |random| {
        let (plane, shape, out_length) = plane(random);
        let mut out = random_words(random, out_length);
        despeckle(&plane, shape, &mut out).refusal
    }),
    target("operate", &[0, 7, 8, 14], |random| {
        operate(&mut any_bank(random), operation(random)).refusal
    }),
    target("run", &[0, 4, 7, 8, 14], |random| {
        let list = list(random);
        let budget = budget(random, &list);
        run(&mut bank_for(random, &list), &list, budget).refusal
    }),
    target("continue", &[0, 4, 7, 8, 14], |random| {
        let (mut bank, list) = continued(random);
        let budget = budget(random, &list);
        continue_run(&mut bank, &list, budget).refusal
    }),
    target("drop", &[0], |random| {
        drop_run(&mut any_bank(random));
        NONE
    }),
    target("frame", &[0, 4, 7, 8, 14, 15], framed),
    target("read", &[0, 8], |random| {
        read(&any_bank(random), register(random)).refusal
    }),
    target("write", &[0, 8], |random| {
        write(&mut any_bank(random), register(random), random.word()).refusal
    }),
    target("status", &[0], |random| {
        status(&any_bank(random));
        NONE
    }),
    target("enable", &[0], |random| {
        enable(&mut any_bank(random), byte(random));
        NONE
    }),
    target("acknowledge", &[0], |random| {
        acknowledge(&mut any_bank(random), byte(random));
        NONE
    }),
    target("interrupt", &[0], |random| {
        interrupt(&any_bank(random));
        NONE
    }),
];

const fn target(
    name: &'static str,
    numbers: &'static [usize],
    check: fn(&mut Random) -> u8,
) -> Target {
    Target {
        name,
        numbers,
        check,
    }
}

fn masked(random: &mut Random, call: Call<u64, Gathered>) -> u8 {
    let (handed, width) = widths(random);
    let mask = word(random, width);
    call.check(handed, mask, word(random, width)).refusal
}

fn carried(random: &mut Random, call: Call<Controls>) -> u8 {
    let (handed, width) = widths(random);
    let controls = controls(random, width);
    call.check(handed, controls, word(random, width)).refusal
}

fn prepared(random: &mut Random, call: Call<Controls, Swaps, ()>) -> u8 {
    let (handed, width) = widths(random);
    call.check(handed, controls(random, width), ()).refusal
}

/// On a prepared network, or on any six words; nothing is refused.
fn passed(random: &mut Random, passage: Passage) -> u8 {
    let width = random.pick(&WIDTHS);
    let controls = any_controls(random, width);
    let word = any_word(random, 64);
    if random.below(2) == 0 {
        passage.prepared(width, controls)(word);
    } else {
        passage.check(any_swaps(random), word);
    }
    NONE
}

fn routed<R: Copy + Debug + PartialEq>(random: &mut Random, call: Call<[u8], R, ()>) -> u8 {
    let (handed, width) = widths(random);
    call.check(handed, &permutation(random, width), ()).refusal
}

/// What is made of the end of the words that are read.
type End = fn(&mut Random, u64, &mut [u64], (usize, usize));

fn as_it_is(_: &mut Random, _: u64, _: &mut [u64], _: (usize, usize)) {}

fn packed(random: &mut Random, call: PackingCall, end: End) -> u8 {
    let mask = word(random, 64);
    let length = length(random);
    let (a, b) = cut(random, length);
    let other = other_length(random, mask, (a, b));
    let (mut first, mut second) = call.lists(random, mask, (a, b), (length, other));
    end(random, mask, &mut first, (a, b));
    call.check(mask, &first, a, b, &mut second).refusal
}

/// There and back; a bit turned over on the way is one bit of what comes back.
/// Nothing is refused.
fn converted(random: &mut Random, there: Conversion, back: Conversion) -> u8 {
    let words = any_eight(random);
    let mut converted = there.check(words);
    let damaged = random.below(2);
    if damaged == 1 {
        let [word, bit] = [8, 64].map(|bound| random.below(bound));
        converted = turned_over(converted, word as usize, bit);
    }
    let differ = zip(back.check(converted), words).map(|(one, other)| one ^ other);
    assert_eq!(differ.map(u64::count_ones).sum::<u32>(), damaged);
    NONE
}

/// There and back, with a bit turned over on the way or none, likewise.
fn moved(random: &mut Random, there: Movement, back: Movement) -> u8 {
    let tile = any_word(random, 64);
    let bit = 1 << random.below(64);
    let turned_over = random.pick(&[0, bit]);
    let again = back.check(there.check(tile) ^ turned_over);
    assert_eq!((again ^ tile).count_ones(), turned_over.count_ones());
    NONE
}

fn paired(random: &mut Random, call: Call<u64>) -> u8 {
    let size = size(random);
    let [first, second] = [(); 2].map(|()| any_word(random, 64));
    call.check(size, first, second).refusal
}

/// A frame, or one after others on the same banks, with calls on these between; answers
/// the number of the last.
fn framed(random: &mut Random) -> u8 {
    let mut frame = frame(random);
    let mut refusal = frame.call().refusal;
    for _ in 0..random.below(3) {
        let number = random.below(4) as usize;
        any_call(random, &mut frame.banks[number]);
        bring_next(random, &mut frame);
        refusal = frame.call().refusal;
    }
    refusal
}

/// Makes some call on this bank that may change it.
pub fn any_call(random: &mut Random, bank: &mut Bank) {
    match random.below(8) {
        0 => drop(operate(bank, operation(random))),
        1 => {
            let list = list(random);
            let budget = budget(random, &list);
            run(bank, &list, budget);
        }
        2 | 3 => {
            let left = bank.list.len().min(bank.left as usize);
            let list = bank.list[..left].to_vec();
            let budget = budget(random, &list);
            continue_run(bank, &list, budget);
        }
        4 => drop_run(bank),
        5 => drop(write(bank, register(random), random.word())),
        6 => enable(bank, byte(random)),
        _ => acknowledge(bank, byte(random)),
    }
}

/// For each call, how often it answered each refusal number.
pub struct Tally([[u64; NUMBERS]; TARGETS.len()]);

impl Tally {
    /// Panics unless each call answered every number that it can, and no other.
    pub fn assert_complete(&self) {
        for (target, counts) in zip(&TARGETS, &self.0) {
            let answered: Vec<usize> = (0..NUMBERS).filter(|&n| counts[n] > 0).collect();
            assert_eq!(answered, target.numbers, "{}\n{self}", target.name);
        }
    }
}

impl Display for Tally {
    fn fmt(&self, f: &mut Formatter<'_>) -> fmt::Result {
        write!(f, "{:<19} {:>9} |", "call", "calls")?;
        (0..NUMBERS).try_for_each(|number| write!(f, " {number:>8}"))?;
        for (target, counts) in zip(&TARGETS, &self.0) {
            let calls: u64 = counts.iter().sum();
            write!(f, "\n{:<19} {calls:>9} |", target.name)?;
            for (number, count) in counts.iter().enumerate() {
                // A number that the call cannot answer is left out.
                let shown = target.numbers.contains(&number) || *count > 0;
                let count = if shown { count.to_string() } else { "".into() };
                write!(f, " {count:>8}")?;
            }
        }
        Ok(())
    }
}

/// Makes so many calls. Each has a seed of its own, this one plus its number, so
/// that it can be made again alone; that is said if it does not agree with the
/// model, before the panic goes on.
pub fn fuzz(calls: u64, seed: u64) -> Tally {
    println!("seed {seed:#x}");
    let mut tally = Tally([[0; NUMBERS]; TARGETS.len()]);
    for number in 0..calls {
        let own_seed = seed.wrapping_add(number);
        let checked = catch_unwind(|| {
            let mut random = Random::from(own_seed);
            let target = random.below(TARGETS.len() as u32) as usize;
            (target, (TARGETS[target].check)(&mut random))
        });
        match checked {
            Ok((target, refusal)) => tally.0[target][usize::from(refusal)] += 1,
            Err(panic) => {
                const FUZZ: &str = "cargo run --offline -p conformance --bin fuzz --";
                println!("call {number} from seed {seed:#x} does not agree");
                println!("that call again:        {FUZZ} 1 {own_seed:#x}");
                println!("with those before it:   {FUZZ} {} {seed:#x}", number + 1);
                resume_unwind(panic);
            }
        }
    }
    tally
}
