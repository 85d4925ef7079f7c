//! Every call of the library on random inputs of several sizes, and runs of each
//! kind of operation.

use crate::frames::{self, Channels};
use crate::masks::{Mask, OfMask};
use crate::networks::{controls_and_word, random_controls, Network, Passage, Prepare};
use crate::packing::{Packing, ALL_MARKED, COLOUR, PACK, UNPACK};
use crate::pixels::Lists;
use crate::routing::permutation_by;
use crate::subwords::OfPair;
use crate::table::{print_heading, print_line};
use crate::tiles::OfTile;
use crate::timing::{inputs, Calls};
use crate::waiting::{waiting_bank, Job, Registers, LIBRARY, OPERATIONS};
use conformance::low_ones;
use conformance::pixels::Shape;
use conformance::planes::Words;
use conformance::programs::{bank, program, Form, FORMS};
use conformance::samples::{random_eight, random_permutation, Random};
use conformance::unit::lent;
use std::cell::RefCell;
use std::hint::black_box;
use tigbayon::{
    tb_acknowledge, tb_butterfly, tb_butterfly_prepared, tb_check, tb_decode, tb_drop, tb_enable,
    tb_exchange, tb_excheck, tb_from_planes, tb_gather, tb_group, tb_interrupt, tb_inverse,
    tb_inverse_prepared, tb_mix_left, tb_mix_right, tb_operate, tb_prepare_butterfly,
    tb_prepare_inverse, tb_read, tb_route, tb_route_butterfly, tb_route_groups, tb_route_inverse,
    tb_run, tb_scatter, tb_status, tb_tile_mirror_columns, tb_tile_mirror_rows, tb_tile_transpose,
    tb_tile_turn_left, tb_tile_turn_right, tb_to_planes, tb_write, TbBank, TbPlanes,
};

/// Calls whose inputs have sizes of one sort.
pub struct Growth {
    /// The sort of size.
    pub name: &'static str,
    sizes: &'static [usize],
    /// What a time is of: the call, or one part of it, of which the size is the
    /// count.
    each: &'static str,
    calls: &'static [BySize],
}

/// A call's name, and how it is made on inputs of a size.
type BySize = (&'static str, fn(usize) -> Calls);

const CALL: &str = "call";

/// All calls, by what they may grow with.
pub const GROWTHS: [Growth; 8] = [
    Growth {
        name: "by width",
        sizes: &[8, 16, 32, 64],
        each: CALL,
        calls: &[
            ("gather", |width| masked(width, tb_gather)),
            ("scatter", |width| masked(width, tb_scatter)),
            ("group", |width| masked(width, tb_group)),
            ("butterfly", |width| carried(width, tb_butterfly)),
            ("inverse", |width| carried(width, tb_inverse)),
            ("prepare_butterfly", |width| {
                prepared(width, tb_prepare_butterfly)
            }),
            ("prepare_inverse", |width| {
                prepared(width, tb_prepare_inverse)
            }),
            ("butterfly_prepared", |width| {
                passed(width, tb_prepare_butterfly, tb_butterfly_prepared)
            }),
            ("inverse_prepared", |width| {
                passed(width, tb_prepare_inverse, tb_inverse_prepared)
            }),
            ("decode", |width| {
                let width = width as u32;
                let mask = |random: &mut Random| random.word() & low_ones(width);
                calls(1, mask, move |&mask| tb_decode(width, mask))
            }),
            ("route", |width| routed(width, random_permutation, tb_route)),
            ("route_butterfly", |width| {
                let permutation = by_network(tb_butterfly);
                routed(width, permutation, tb_route_butterfly)
            }),
            ("route_inverse", |width| {
                let permutation = by_network(tb_inverse);
                routed(width, permutation, tb_route_inverse)
            }),
            ("route_groups", |width| {
                routed(width, random_permutation, tb_route_groups)
            }),
        ],
    },
    Growth {
        name: "by subword size",
        sizes: &[1, 2, 4, 8, 16, 32],
        each: CALL,
        calls: &[
            ("check", |size| paired(size, tb_check)),
            ("excheck", |size| paired(size, tb_excheck)),
            ("mix_left", |size| paired(size, tb_mix_left)),
            ("mix_right", |size| paired(size, tb_mix_right)),
            ("exchange", |size| {
                let size = size as u32;
                calls(1, Random::word, move |&word| tb_exchange(size, word))
            }),
        ],
    },
    Growth {
        name: "by words",
        sizes: &[1, 8, 64, 512, 2_048],
        each: "word",
        calls: &[
            ("pack", |words| packed(words, PACK, COLOUR)),
            ("unpack", |words| packed(words, UNPACK, COLOUR)),
            ("pack_random", |words| packed(words, PACK, Random::word)),
            ("unpack_random", |words| packed(words, UNPACK, Random::word)),
            ("pack_all_marked", |words| packed(words, PACK, ALL_MARKED)),
            ("unpack_all_marked", |words| {
                packed(words, UNPACK, ALL_MARKED)
            }),
            ("despeckle", |words| {
                // As many rows as words in a row, or twice as many.
                let row_words = 1 << (words.ilog2() / 2);
                despeckled((words / row_words, row_words))
            }),
            ("despeckle_row", |words| despeckled((1, words))),
            ("despeckle_column", |words| despeckled((words, 1))),
        ],
    },
    Growth {
        name: "by operations",
        sizes: &[1, 4, 16, 64, 256, 1_024],
        each: "operation",
        calls: &[
            ("run", |operations| ran(operations, program)),
            // The list is checked and copied; continue compares it too.
            ("run_budget_0", |operations| {
                worked(operations, 1, |job| job.start(LIBRARY))
            }),
            ("continue_budget_0", |operations| {
                worked(operations, 1, |job| job.wait_on(LIBRARY))
            }),
        ],
    },
    Growth {
        name: "run by turns",
        sizes: &[1, 2, 4, 8, 16],
        each: CALL,
        calls: &[("run_in_turns", |turns| {
            worked(OPERATIONS, turns as u32, |job| job.in_turns(LIBRARY))
        })],
    },
    // Each frame beside the same by runs.
    Growth {
        name: "frame by length",
        sizes: &[0, 1, 4, 16, 64, 256, 1_024],
        each: CALL,
        calls: &[
            ("frame", |operations| {
                framed(operations, Channels::ample, Channels::in_a_frame)
            }),
            ("frame_by_runs", |operations| {
                framed(operations, Channels::ample, Channels::in_runs)
            }),
            ("frame_continued", |operations| {
                framed(operations, Channels::continued, Channels::in_a_frame)
            }),
            ("frame_continued_by_runs", |operations| {
                framed(operations, Channels::continued, Channels::in_runs)
            }),
            ("frame_halved", |operations| {
                framed(operations, Channels::halved, Channels::in_a_frame)
            }),
            ("frame_halved_by_runs", |operations| {
                framed(operations, Channels::halved, Channels::in_turns)
            }),
            ("frame_from_rest", |operations| {
                framed(operations, Channels::from_rest, Channels::in_a_frame)
            }),
            ("frame_from_rest_by_runs", |operations| {
                framed(operations, Channels::from_rest, Channels::in_turns)
            }),
        ],
    },
    Growth {
        name: "run by kind",
        sizes: &[1_024],
        each: "operation",
        calls: &[
            ("run_kind_1", ran_of_kind::<1>),
            ("run_kind_2", ran_of_kind::<2>),
            ("run_kind_3", ran_of_kind::<3>),
            ("run_kind_4", ran_of_kind::<4>),
            ("run_kind_5", ran_of_kind::<5>),
            ("run_kind_6", ran_of_kind::<6>),
            ("run_kind_7", ran_of_kind::<7>),
            ("run_kind_8", ran_of_kind::<8>),
            ("run_kind_9", ran_of_kind::<9>),
            ("run_kind_10", ran_of_kind::<10>),
            // All that decode nothing for later operations.
            ("run_kinds_1_to_7_and_10", |operations| {
                ran(operations, |random, operations| {
                    program_of(random, |kind| kind != 8 && kind != 9, operations)
                })
            }),
        ],
    },
    Growth {
        name: "of one size",
        sizes: &[1],
        each: CALL,
        calls: &[
            ("to_planes", |_| converted(tb_to_planes)),
            ("from_planes", |_| converted(tb_from_planes)),
            ("tile_transpose", |_| moved(tb_tile_transpose)),
            ("tile_turn_left", |_| moved(tb_tile_turn_left)),
            ("tile_turn_right", |_| moved(tb_tile_turn_right)),
            ("tile_mirror_columns", |_| moved(tb_tile_mirror_columns)),
            ("tile_mirror_rows", |_| moved(tb_tile_mirror_rows)),
            ("operate", |_| {
                on_bank(1, program, |bank, list| {
                    tb_operate(bank, list[0], list[1], list[2], list[3])
                })
            }),
            ("write", |_| {
                on_bank(1, program, |bank, list| tb_write(bank, list[0], 1))
            }),
            ("enable", |_| {
                on_bank(1, program, |bank, list| tb_enable(bank, list[0]))
            }),
            ("acknowledge", |_| {
                on_bank(1, program, |bank, list| tb_acknowledge(bank, list[0]))
            }),
            // The same where a run waits with the longest list.
            ("write_waiting", |_| {
                on_waiting_bank(|bank, list| tb_write(bank, list[0], 1))
            }),
            ("acknowledge_waiting", |_| {
                on_waiting_bank(|bank, list| tb_acknowledge(bank, list[0]))
            }),
            ("drop_waiting", |_| on_waiting_bank(|bank, _| tb_drop(bank))),
            // What the timing takes of that: a fresh bank, and of all calls.
            ("bank", |_| on_bank(1, program, |_, _| ())),
            ("read", |_| reading(|bank| tb_read(bank, 1))),
            ("status", |_| reading(|bank| tb_status(bank))),
            ("interrupt", |_| reading(|bank| tb_interrupt(bank))),
            ("nothing", |_| reading(|_| ())),
        ],
    },
];

impl Growth {
    /// Prints the times of its calls at each size.
    pub fn print(&self) {
        print_heading(self.name, self.each, self.sizes);
        for (name, calls) in self.calls {
            let column = |&size| {
                let parts = if self.each == CALL { 1 } else { size };
                (calls(size), parts)
            };
            let columns: Vec<_> = self.sizes.iter().map(column).collect();
            print_line(name, &columns);
        }
    }

    /// The call of this name, on inputs of this one of its sizes or else the
    /// largest.
    fn by_name(&self, name: &str, size: Option<usize>) -> Option<Calls> {
        let (_, calls) = self.calls.iter().find(|(found, _)| *found == name)?;
        let mut sizes = self.sizes.iter().copied();
        let size = match size {
            Some(size) => sizes.find(|&found| found == size),
            None => sizes.max(),
        };
        size.map(calls)
    }
}

/// The names of all calls.
pub fn names() -> impl Iterator<Item = &'static str> {
    let calls = GROWTHS.iter().flat_map(|growth| growth.calls);
    calls.map(|(name, _)| *name)
}

/// The call of this name, on inputs of this one of its sizes or else the largest.
pub fn by_name(name: &str, size: Option<usize>) -> Option<Calls> {
    GROWTHS.iter().find_map(|growth| growth.by_name(name, size))
}

/// Calls on inputs of so many parts.
fn calls<I: 'static, A>(
    parts: usize,
    make: impl Fn(&mut Random) -> I,
    call: impl Fn(&I) -> A + 'static,
) -> Calls {
    Calls::new(&inputs(parts, make), call)
}

fn masked(width: usize, call: OfMask) -> Calls {
    let width = width as u32;
    let word = |random: &mut Random| random.word() & low_ones(width);
    let make = |random: &mut Random| (word(random), word(random));
    calls(1, make, move |&(mask, word)| call(width, mask, word))
}

fn carried(width: usize, call: Network) -> Calls {
    let width = width as u32;
    let make = |random: &mut Random| controls_and_word(random, width);
    calls(1, make, move |(controls, word)| {
        call(width, controls, *word)
    })
}

fn prepared(width: usize, call: Prepare) -> Calls {
    let width = width as u32;
    let make = |random: &mut Random| random_controls(random, width);
    calls(1, make, move |controls| call(width, controls))
}

fn passed(width: usize, prepare: Prepare, call: Passage) -> Calls {
    let width = width as u32;
    let make = |random: &mut Random| {
        let (controls, word) = controls_and_word(random, width);
        (prepare(width, &controls).swaps, word)
    };
    calls(1, make, move |(swaps, word)| call(swaps, *word))
}

fn routed<A>(
    width: usize,
    permutation: impl Fn(&mut Random, u32) -> Vec<u8>,
    call: impl Fn(u32, &[u8]) -> A + 'static,
) -> Calls {
    let width = width as u32;
    let make = |random: &mut Random| permutation(random, width);
    calls(1, make, move |permutation| call(width, permutation))
}

fn by_network(network: Network) -> impl Fn(&mut Random, u32) -> Vec<u8> {
    move |random, width| permutation_by(random, network, width)
}

fn packed(words: usize, packing: Packing, mask: Mask) -> Calls {
    let make = |random: &mut Random| packing.lists(random, mask, words);
    calls(words, make, move |lists| packing.on(lists))
}

fn despeckled((rows, row_words): Shape) -> Calls {
    let make = |random: &mut Random| Lists::of(random, (rows, row_words));
    calls(rows * row_words, make, Lists::despeckle)
}

fn converted(call: extern "C" fn(&Words) -> TbPlanes) -> Calls {
    calls(1, random_eight, move |words| call(words))
}

fn moved(call: OfTile) -> Calls {
    calls(1, Random::word, move |&tile| call(tile))
}

fn paired(size: usize, call: OfPair) -> Calls {
    let size = size as u32;
    let make = |random: &mut Random| (random.word(), random.word());
    calls(1, make, move |&(first, second)| call(size, first, second))
}

/// A call that only reads a bank, on fewer of them than other calls have inputs: each lies
/// in a page of its own.
fn reading<A>(call: impl Fn(&TbBank) -> A + 'static) -> Calls {
    calls(8, |random| lent(&bank(random)), move |bank| call(bank))
}

/// A call of a list of so many operations for so many turns, and of a bank that waits with
/// the list; on few of them, since each is large.
fn worked<A>(operations: usize, turns: u32, call: impl Fn(&Job) -> A + 'static) -> Calls {
    let make = |random: &mut Random| Job::of(random, operations, turns);
    calls(operations.max(64), make, call)
}

/// A call of four lists of so many operations, in a frame or by runs.
fn framed(operations: usize, make: frames::Make, call: frames::Call) -> Calls {
    let make = |random: &mut Random| make(random, operations);
    calls(frames::parts(operations), make, call)
}

/// So many operations, in bytes.
type Program = fn(&mut Random, u32) -> Vec<u8>;

fn ran(operations: usize, program: Program) -> Calls {
    on_bank(operations, program, |bank, list| {
        tb_run(bank, list, u32::MAX)
    })
}

fn ran_of_kind<const KIND: u8>(operations: usize) -> Calls {
    ran(operations, |random, operations| {
        program_of(random, |kind| kind == KIND, operations)
    })
}

/// So many operations of these kinds. The upper registers are only read: they keep
/// the lower ones, which are written, from ending in zeros.
fn program_of(random: &mut Random, of: fn(u8) -> bool, operations: u32) -> Vec<u8> {
    let forms: Vec<&Form> = FORMS.iter().filter(|form| of(form.kind)).collect();
    let mut operation = |_| {
        let registers = [8, 16, 16].map(|bound| random.below(bound) as u8);
        random.pick(&forms).operation(registers)
    };
    (0..operations).flat_map(&mut operation).collect()
}

/// A call of a bank, fresh each time, and of a list of so many operations.
fn on_bank<A>(
    operations: usize,
    program: Program,
    call: impl Fn(&mut TbBank, &[u8]) -> A + 'static,
) -> Calls {
    on_copy(TbBank::default(), operations, program, call)
}

/// The same of one operation, where the bank waits with the longest list.
fn on_waiting_bank<A>(call: impl Fn(&mut TbBank, &[u8]) -> A + 'static) -> Calls {
    let list = program(&mut Random::default(), OPERATIONS as u32);
    on_copy(waiting_bank(&list), 1, program, call)
}

/// The same of this bank, to which random registers are copied each time.
fn on_copy<A>(
    bank: TbBank,
    operations: usize,
    program: Program,
    call: impl Fn(&mut TbBank, &[u8]) -> A + 'static,
) -> Calls {
    let make = |random: &mut Random| {
        let list = program(random, operations as u32);
        (Registers::of(random), list)
    };
    let (waiting, bank) = (bank.waiting, RefCell::new(bank));
    calls(operations, make, move |(registers, list)| {
        let bank = &mut *bank.borrow_mut();
        registers.copy_to(bank, waiting);
        call(black_box(bank), list)
    })
}
