//! What paper 01 ("Strips") and requests 01 and 02 of paper 02 say of packed words,
//! asked of the library.

use conformance::low_ones;
use conformance::packing::{bits, clean_end, words_needed};
use conformance::samples::{for_each, random_words, Random};
use std::iter::zip;
use tigbayon::{gather, pack, scatter, unpack, Packed, Refusal};

type Outcome = Result<(), Refusal>;

/// Checks a law on masks of every shape, random words, and cuts a and b of
/// them.
fn holds(law: impl Fn(&mut Random, u64, &[u64], usize, usize) -> Outcome) {
    let mut random = Random::default();
    for_each(64, 20, |mask, _| {
        let length = random.below(100);
        let b = random.below(length + 1);
        let a = random.below(b + 1) as usize;
        let words = random_words(&mut random, length as usize);
        law(&mut random, mask, &words, a, b as usize).expect("not refused");
    });
}

/// The fields of words a to b-1, in no more words than they need.
fn packed(mask: u64, words: &[u64], a: usize, b: usize) -> Result<Vec<u64>, Refusal> {
    let mut packed = vec![u64::MAX; words_needed(mask, a, b)];
    let answer = pack(mask, words, a..b, &mut packed)?;
    assert_eq!(answer.bits, bits(mask, a, b));
    Ok(packed)
}

/// "Pack and unpack answer it too, beside the bits": gather's count, even with no
/// field, and as many bits for each.
#[test]
fn both_count_the_bits_of_a_field_and_those_of_all() {
    holds(|_, mask, words, a, b| {
        let count = gather(64, mask, 0)?.count;
        for (a, b) in [(a, b), (a, a)] {
            let bits = u64::from(count) * (b - a) as u64;
            let mut out = words.to_vec();
            let answer = pack(mask, words, a..b, &mut out)?;
            assert_eq!(answer, Packed { count, bits });
            let mut packed = words.to_vec();
            clean_end(mask, &mut packed, a, b);
            let answer = unpack(mask, &packed, a..b, &mut out)?;
            assert_eq!(answer, Packed { count, bits });
        }
        Ok(())
    });
}

#[test]
fn unpack_after_pack_zeroes_the_unmarked_bits() {
    holds(|random, mask, words, a, b| {
        let packed = packed(mask, words, a, b)?;
        let before = random_words(random, words.len());
        let mut out = before.clone();
        let answer = unpack(mask, &packed, a..b, &mut out)?;
        assert_eq!(answer.bits, bits(mask, a, b));
        for (out, word) in zip(&out[a..b], &words[a..b]) {
            assert_eq!(*out, word & mask);
        }
        assert_eq!(out[..a], before[..a]);
        assert_eq!(out[b..], before[b..]);
        Ok(())
    });
}

/// "Each word's k gathered bits form a field", and "The next field begins at
/// the bit after the last one".
#[test]
fn bits_of_the_stream_are_bits_of_the_gathered_words() {
    holds(|_, mask, words, a, b| {
        let packed = packed(mask, words, a, b)?;
        let k = mask.count_ones() as usize;
        for n in 0..k * (b - a) {
            let field = gather(64, mask, words[a + n / k])?.word;
            assert_eq!(packed[n / 64] >> (n % 64) & 1, field >> (n % k) & 1);
        }
        Ok(())
    });
}

/// "Spare bits of the last word written become zero; words after it keep their
/// values."
#[test]
fn pack_writes_no_more_than_its_bits_and_spare_zeros() {
    holds(|random, mask, words, a, b| {
        let packed = packed(mask, words, a, b)?;
        let used = packed.len();
        let before = random_words(random, used + 3);
        let mut out = before.clone();
        pack(mask, words, a..b, &mut out)?;
        assert_eq!(out[..used], packed);
        assert_eq!(out[used..], before[used..]);
        let in_last = bits(mask, a, b) % 64;
        if in_last != 0 {
            assert_eq!(out[used - 1] & !low_ones(in_last as u32), 0);
        }
        Ok(())
    });
}

/// Words that unpack into words a to b-1, in no more than they need: any but for
/// the clean end.
fn any_packed(random: &mut Random, mask: u64, a: usize, b: usize) -> Vec<u64> {
    let mut packed = random_words(random, words_needed(mask, a, b));
    clean_end(mask, &mut packed, a, b);
    packed
}

/// "From this release the spare bits of the last word that unpack reads must be
/// zero."
#[test]
fn unpack_refuses_any_spare_bits_but_zeros() {
    holds(|random, mask, words, a, b| {
        let mut packed = any_packed(random, mask, a, b);
        unpack(mask, &packed, a..b, &mut words.to_vec())?;
        let in_last = bits(mask, a, b) % 64;
        let dirt = random.word() << in_last;
        if in_last != 0 && dirt != 0 {
            *packed.last_mut().expect("a word") |= dirt;
            let mut out = words.to_vec();
            let outcome = unpack(mask, &packed, a..b, &mut out);
            assert_eq!(outcome, Err(Refusal::Spare));
            assert_eq!(out, words);
        }
        Ok(())
    });
}

/// "Words beyond the last one read stay free."
#[test]
fn unpack_does_not_look_at_words_beyond_the_last_one_read() {
    holds(|random, mask, words, a, b| {
        let packed = any_packed(random, mask, a, b);
        let mut expected = words.to_vec();
        let answer = unpack(mask, &packed, a..b, &mut expected)?;
        for beyond in [vec![0], vec![u64::MAX], vec![0, 1], random_words(random, 3)] {
            let mut out = words.to_vec();
            let packed = [&packed[..], &beyond].concat();
            assert_eq!(unpack(mask, &packed, a..b, &mut out)?, answer);
            assert_eq!(out, expected);
        }
        Ok(())
    });
}

/// "So pack after unpack, with the same mask, a and b, returns the words read, for
/// every strip accepted."
#[test]
fn pack_after_unpack_returns_the_words_read() {
    holds(|random, mask, words, a, b| {
        let packed = any_packed(random, mask, a, b);
        let read = packed.len();
        let and_beyond = [&packed[..], &random_words(random, 2)].concat();
        let mut unpacked = words.to_vec();
        let answer = unpack(mask, &and_beyond, a..b, &mut unpacked)?;
        let before = random_words(random, read + 3);
        let mut out = before.clone();
        assert_eq!(pack(mask, &unpacked, a..b, &mut out)?, answer);
        assert_eq!(out[..read], packed);
        assert_eq!(out[read..], before[read..]);
        Ok(())
    });
}

/// Whatever lay where it writes, and lies beyond.
#[test]
fn unpack_accepts_what_pack_leaves() {
    holds(|random, mask, words, a, b| {
        let used = words_needed(mask, a, b);
        for before in [vec![u64::MAX; used + 2], random_words(random, used + 2)] {
            let mut left = before;
            let answer = pack(mask, words, a..b, &mut left)?;
            let mut out = words.to_vec();
            assert_eq!(unpack(mask, &left, a..b, &mut out)?, answer);
        }
        Ok(())
    });
}

/// "Two houses sent strips that unpack alike but differ in their last word": no
/// two that are accepted do.
#[test]
fn words_that_unpack_alike_agree_in_every_word_read() {
    holds(|random, mask, words, a, b| {
        let one = any_packed(random, mask, a, b);
        let mut changed = one.clone();
        if !changed.is_empty() {
            let place = random.below(changed.len() as u32) as usize;
            changed[place] ^= random.word() & random.word() & random.word();
        }
        clean_end(mask, &mut changed, a, b);
        for other in [one.clone(), changed, any_packed(random, mask, a, b)] {
            let [unpacked, other_unpacked] = [&one, &other].map(|read| {
                let packed = [&read[..], &random_words(random, 2)].concat();
                let mut out = words.to_vec();
                unpack(mask, &packed, a..b, &mut out).map(|_| out)
            });
            assert_eq!(unpacked? == other_unpacked?, one == other);
        }
        Ok(())
    });
}

/// A bit of the words read is one of a field, and moves to one place, or spare.
#[test]
fn a_changed_bit_of_the_words_read_changes_one_bit_or_is_refused() {
    holds(|random, mask, words, a, b| {
        let mut packed = any_packed(random, mask, a, b);
        let mut expected = words.to_vec();
        unpack(mask, &packed, a..b, &mut expected)?;
        let k = mask.count_ones() as usize;
        for n in 0..64 * packed.len() {
            packed[n / 64] ^= 1 << (n % 64);
            let mut out = words.to_vec();
            let outcome = unpack(mask, &packed, a..b, &mut out);
            packed[n / 64] ^= 1 << (n % 64);
            if n < k * (b - a) {
                outcome?;
                out[a + n / k] ^= scatter(64, mask, 1 << (n % k))?.word;
                assert_eq!(out, expected);
            } else {
                assert_eq!(outcome, Err(Refusal::Spare));
                assert_eq!(out, words);
            }
        }
        Ok(())
    });
}

/// A field alone. Scatter does not look at bits k and up of its word, unpack
/// refuses a one there, unless there is no bit to read.
#[test]
fn one_field_is_gather_and_scatter() {
    for_each(64, 200, |mask, word| {
        let mut out = [!word];
        pack(mask, &[word], 0..1, &mut out).expect("not refused");
        let gathered = gather(64, mask, word).expect("not refused");
        let field = if mask == 0 { !word } else { gathered.word };
        assert_eq!(out, [field]);
        let scattered = scatter(64, mask, word).expect("not refused");
        let low = word & low_ones(gathered.count);
        let spare = mask != 0 && low != word;
        for (packed, spare) in [(low, false), (word, spare)] {
            let mut out = [!scattered.word];
            let refused = unpack(mask, &[packed], 0..1, &mut out).err();
            assert_eq!(refused, spare.then_some(Refusal::Spare));
            assert_eq!(out[0] == scattered.word, !spare);
        }
    });
}

/// "With no bits, pack writes no word", and unpack reads none and zeroes its words.
#[test]
fn no_marked_bits() {
    holds(|_, _, words, a, b| {
        let mut out = words.to_vec();
        let nothing = Packed { count: 0, bits: 0 };
        assert_eq!(pack(0, words, a..b, &mut out)?, nothing);
        assert_eq!(out, words);
        assert_eq!(pack(0, words, a..b, &mut [])?, nothing);
        for packed in [&[], words] {
            let mut out = words.to_vec();
            assert_eq!(unpack(0, packed, a..b, &mut out)?, nothing);
            assert!(out[a..b].iter().all(|&word| word == 0));
        }
        Ok(())
    });
}

#[test]
fn all_bits_marked_copies_the_words() {
    holds(|random, _, words, a, b| {
        assert_eq!(packed(u64::MAX, words, a, b)?, words[a..b]);
        let mut out = random_words(random, words.len());
        let answer = unpack(u64::MAX, &words[a..b], a..b, &mut out)?;
        assert_eq!(answer.count, 64);
        assert_eq!(out[a..b], words[a..b]);
        Ok(())
    });
}
