//! Packing words of 12-bit colour, by random masks, and whole; each word timed.

use crate::bmi2;
use crate::contest::Contest;
use crate::decoding::decoded;
use crate::masks::{compress, compress_by, expand, expand_by, moves, Mask};
use crate::networks::{delta_swaps, swaps_of};
use conformance::packing::{bits, clean_end, words_needed, LONGEST};
use conformance::samples::{random_words, Random};
use std::cell::RefCell;
use std::hint::black_box;
use tigbayon::{tb_pack, tb_unpack};

/// Four colours of 12 bits in places of 16.
pub const COLOUR: Mask = |_| 0x0FFF_0FFF_0FFF_0FFF;

/// Whole words.
pub const ALL_MARKED: Mask = |_| u64::MAX;

/// The masks that methods are compared on.
const MASKS: [(&str, Mask); 2] = [("colour", COLOUR), ("random mask", Random::word)];

/// A call of a mask and two lists of words: packs all words of the first, or unpacks
/// into all words of the second. It answers how many bits these are, without the
/// count of marked ones.
pub type OfWords = fn(u64, &[u64], &mut [u64]) -> u64;

/// Pack or unpack, as the library offers it.
#[derive(Clone, Copy)]
pub struct Packing {
    call: OfWords,
    /// The lengths of the two lists, for a mask and so many fields.
    lengths: fn(u64, usize) -> (usize, usize),
    /// Makes the end of the first list so that the call is carried out.
    end: fn(u64, &mut [u64], usize),
}

/// Pack.
pub const PACK: Packing = Packing {
    call: |mask, words, out| tb_pack(mask, words, 0, words.len(), out).bits,
    lengths: |mask, fields| (fields, words_needed(mask, 0, fields)),
    end: |_, _, _| {},
};

/// Unpack.
pub const UNPACK: Packing = Packing {
    call: |mask, packed, out| tb_unpack(mask, packed, 0, out.len(), out).bits,
    lengths: |mask, fields| (words_needed(mask, 0, fields), fields),
    end: |mask, packed, fields| clean_end(mask, packed, 0, fields),
};

/// Pack or unpack by other methods, the last of them where the processor has it.
struct Methods {
    network: OfWords,
    moves_for_each: OfWords,
    moves_once: OfWords,
    bmi2: Option<OfWords>,
}

/// Pack beside its peers.
pub fn pack(name: &str) {
    let methods = Methods {
        network: |mask, words, out| {
            let swaps = swaps_of::<true>(&decoded(mask).inverse);
            let gather = |word| delta_swaps::<true>(&swaps, word & mask);
            pack_by(mask, words, out, gather)
        },
        moves_for_each: |mask, words, out| {
            pack_by(mask, words, out, |word| compress(black_box(mask), word))
        },
        moves_once: |mask, words, out| {
            let moves = moves(mask);
            pack_by(mask, words, out, |word| compress_by(&moves, mask, word))
        },
        bmi2: bmi2::pack(),
    };
    PACK.contests(name, &methods);
}

/// Unpack beside its peers.
pub fn unpack(name: &str) {
    let methods = Methods {
        network: |mask, packed, out| {
            let swaps = swaps_of::<false>(&decoded(mask).butterfly);
            let scatter = |field| delta_swaps::<false>(&swaps, field) & mask;
            unpack_by(mask, packed, out, scatter)
        },
        moves_for_each: |mask, packed, out| {
            unpack_by(mask, packed, out, |field| expand(black_box(mask), field))
        },
        moves_once: |mask, packed, out| {
            let moves = moves(mask);
            unpack_by(mask, packed, out, |field| expand_by(&moves, mask, field))
        },
        bmi2: bmi2::unpack(),
    };
    UNPACK.contests(name, &methods);
}

/// A mask, a first list of words, and a second one that every contender writes
/// to.
pub struct WordLists {
    mask: u64,
    first: Vec<u64>,
    second: RefCell<Vec<u64>>,
}

impl WordLists {
    fn call(&self, call: OfWords) -> u64 {
        call(self.mask, &self.first, &mut self.second.borrow_mut())
    }

    /// What a call answers and makes of the second list, all ones before.
    fn outcome(&self, call: OfWords) -> (u64, Vec<u64>) {
        self.second.borrow_mut().fill(u64::MAX);
        (self.call(call), self.second.borrow().clone())
    }
}

impl Packing {
    /// The call, on lists of so many fields.
    pub fn on(&self, lists: &WordLists) -> u64 {
        lists.call(self.call)
    }

    /// Lists of so many fields, by such a mask, on which the call is carried out.
    pub fn lists(&self, random: &mut Random, mask: Mask, fields: usize) -> WordLists {
        let mask = mask(random);
        let (first, second) = (self.lengths)(mask, fields);
        let mut first = random_words(random, first);
        (self.end)(mask, &mut first, fields);
        let lists = WordLists {
            mask,
            first,
            second: RefCell::new(vec![0; second]),
        };
        assert_eq!(self.on(&lists), bits(mask, 0, fields), "not refused");
        lists
    }

    /// The call beside the methods, and beside a copy where that is all there is
    /// to do.
    fn contests(self, name: &str, methods: &Methods) {
        for (sort, mask) in MASKS {
            let sample = Sample::of(self, mask);
            let bmi2 = methods.bmi2.map(|bmi2| sample.checked(bmi2));
            self.contest(mask)
                .peer(
                    "a prepared network in Rust",
                    sample.checked(methods.network),
                )
                .peer(
                    "Hacker's Delight for each word",
                    sample.checked(methods.moves_for_each),
                )
                .peer(
                    "Hacker's Delight, moves made once",
                    sample.checked(methods.moves_once),
                )
                .within(1.0)
                .peer_if_any("BMI2 instruction", bmi2)
                .print(&format!("{name} a word, {sort}"));
        }
        self.contest(ALL_MARKED)
            .peer(
                "a copy of the words",
                Sample::of(self, ALL_MARKED).checked(copied),
            )
            .print(&format!("{name} a word, all marked"));
    }

    /// The call, on the longest lists.
    fn contest(self, mask: Mask) -> Contest<WordLists, u64> {
        let lists = |random: &mut Random| self.lists(random, mask, LONGEST);
        Contest::of_parts(LONGEST, lists, move |lists| self.on(lists))
    }
}

/// Lists, and what the library's call answers and makes of them: a contest checks
/// only how many bits there are.
struct Sample {
    lists: WordLists,
    expected: (u64, Vec<u64>),
}

impl Sample {
    fn of(packing: Packing, mask: Mask) -> Self {
        let lists = packing.lists(&mut Random::default(), mask, LONGEST);
        let expected = lists.outcome(packing.call);
        Sample { lists, expected }
    }

    /// A peer, which must answer and write as the library does.
    fn checked(&self, peer: OfWords) -> impl Fn(&WordLists) -> u64 + 'static {
        assert!(
            self.lists.outcome(peer) == self.expected,
            "peers pack alike"
        );
        move |lists| lists.call(peer)
    }
}

/// Packs or unpacks whole words.
fn copied(_: u64, words: &[u64], out: &mut [u64]) -> u64 {
    out.copy_from_slice(words);
    64 * words.len() as u64
}

/// Appends field after field, each gathered from its word.
#[inline(always)]
pub fn pack_by(mask: u64, words: &[u64], out: &mut [u64], gather: impl Fn(u64) -> u64) -> u64 {
    let k = mask.count_ones();
    let (mut word, mut filled, mut at) = (0, 0, 0);
    for &source in words {
        let field = gather(source);
        word |= field << filled;
        filled += k;
        if filled >= 64 {
            out[at] = word;
            at += 1;
            filled -= 64;
            // What did not fit.
            word = field.checked_shr(k - filled).unwrap_or(0);
        }
    }
    if filled > 0 {
        out[at] = word;
    }
    u64::from(k) * words.len() as u64
}

/// Takes field after field, each scattered into its word. Above its k bits a
/// field has any.
#[inline(always)]
pub fn unpack_by(mask: u64, packed: &[u64], out: &mut [u64], scatter: impl Fn(u64) -> u64) -> u64 {
    let k = mask.count_ones();
    // The bits of the last word read that are left.
    let (mut left, mut count, mut at) = (0_u64, 0, 0);
    for word in &mut *out {
        let mut field = left;
        if count < k {
            let next = packed[at];
            at += 1;
            field |= next << count;
            left = next.checked_shr(k - count).unwrap_or(0);
            count += 64 - k;
        } else {
            left >>= k;
            count -= k;
        }
        *word = scatter(field);
    }
    u64::from(k) * out.len() as u64
}
