//! Subwords of one word or of two, on random words and at random sizes. The peers
//! refuse other sizes, as the library does.

use crate::contest::Contest;
use crate::networks::PAIRS;
use conformance::samples::Random;
use conformance::SIZES;
use tigbayon::{tb_check, tb_exchange, tb_excheck, tb_mix_left, tb_mix_right};
use tigbayon::{Refusal, TbCarried};

/// A call of a size and two words, the library's or a peer's.
pub type OfPair = extern "C" fn(u32, u64, u64) -> TbCarried;

/// A call of a size and one word, likewise.
type OfWord = extern "C" fn(u32, u64) -> TbCarried;

/// A size and two words.
type Input = (u32, u64, u64);

/// Check beside its peers.
pub fn check(name: &str) {
    of_pair::<Check>(name, tb_check);
}

/// Excheck beside its peers.
pub fn excheck(name: &str) {
    of_pair::<Excheck>(name, tb_excheck);
}

/// Mix left beside its peers.
pub fn mix_left(name: &str) {
    of_pair::<MixLeft>(name, tb_mix_left);
}

/// Mix right beside its peers.
pub fn mix_right(name: &str) {
    of_pair::<MixRight>(name, tb_mix_right);
}

/// Exchange beside its peers.
pub fn exchange(name: &str) {
    let through = |call: OfWord| move |&(size, word, _): &Input| call(size, word);
    Contest::of(random_input, through(tb_exchange))
        .alike(BY_SIZE, through(exchanged::<BySize>))
        .within(1.2)
        .alike(BY_LOGARITHM, through(exchanged::<ByLogarithm>))
        .print(name);
}

const BY_SIZE: &str = "two masks, by the size";
const BY_LOGARITHM: &str = "two masks, by its logarithm";

/// The library's call beside peers that look the mask up in either way.
fn of_pair<M: Made>(name: &str, library: OfPair) {
    let through = |call: OfPair| move |&(size, first, second): &Input| call(size, first, second);
    Contest::of(random_input, through(library))
        .alike(BY_SIZE, through(made::<BySize, M>))
        .within(1.2)
        .alike(BY_LOGARITHM, through(made::<ByLogarithm, M>))
        .print(name);
}

fn random_input(random: &mut Random) -> Input {
    (random.pick(&SIZES), random.word(), random.word())
}

/// A way to look up the bits of all odd subwords of a size, the right one of each pair.
trait LookUp {
    fn odd(size: u32) -> Option<u64>;
}

struct BySize;

struct ByLogarithm;

impl LookUp for BySize {
    fn odd(size: u32) -> Option<u64> {
        match size {
            1 => Some(PAIRS[0]),
            2 => Some(PAIRS[1]),
            4 => Some(PAIRS[2]),
            8 => Some(PAIRS[3]),
            16 => Some(PAIRS[4]),
            32 => Some(PAIRS[5]),
            _ => None,
        }
    }
}

impl LookUp for ByLogarithm {
    fn odd(size: u32) -> Option<u64> {
        let is_size = size.is_power_of_two() && size <= 32;
        is_size.then(|| PAIRS[size.trailing_zeros() as usize])
    }
}

/// What a call makes of two words, by the bits of all odd subwords and their size.
trait Made {
    fn made(odd: u64, size: u32, first: u64, second: u64) -> u64;
}

struct Check;

struct Excheck;

struct MixLeft;

struct MixRight;

impl Made for Check {
    fn made(odd: u64, _: u32, first: u64, second: u64) -> u64 {
        first & !odd | second & odd
    }
}

impl Made for Excheck {
    fn made(odd: u64, size: u32, first: u64, second: u64) -> u64 {
        (second & odd) << size | first >> size & odd
    }
}

impl Made for MixLeft {
    fn made(odd: u64, size: u32, first: u64, second: u64) -> u64 {
        first & !odd | second >> size & odd
    }
}

impl Made for MixRight {
    fn made(odd: u64, size: u32, first: u64, second: u64) -> u64 {
        (first & odd) << size | second & odd
    }
}

/// The answer by this way to look up the mask.
extern "C" fn made<L: LookUp, M: Made>(size: u32, first: u64, second: u64) -> TbCarried {
    match L::odd(size) {
        Some(odd) => TbCarried {
            refusal: 0,
            word: M::made(odd, size, first, second),
        },
        None => TbCarried {
            refusal: Refusal::Subword as u8,
            word: 0,
        },
    }
}

/// Excheck of a word with itself.
extern "C" fn exchanged<L: LookUp>(size: u32, word: u64) -> TbCarried {
    made::<L, Excheck>(size, word, word)
}

#[cfg(test)]
mod tests {
    use super::*;
    use conformance::arbitrary;
    use conformance::call::{Call, CHECK, EXCHANGE, EXCHECK, MIX_LEFT, MIX_RIGHT};
    use conformance::samples::any_word;

    /// What both peers answer: the number, and the word.
    fn by_peers<M: Made>((size, first, second): Input) -> (u8, u64) {
        let answer = made::<BySize, M>(size, first, second);
        assert_eq!(made::<ByLogarithm, M>(size, first, second), answer);
        (answer.refusal, answer.word)
    }

    fn exchanged_by_peers(size: u32, word: u64) -> (u8, u64) {
        let answer = exchanged::<BySize>(size, word);
        assert_eq!(exchanged::<ByLogarithm>(size, word), answer);
        (answer.refusal, answer.word)
    }

    /// The answer of `check` is the model's.
    #[test]
    fn every_peer_answers_as_the_model_does() {
        let mut random = Random::default();
        for _ in 0..5_000 {
            let size = arbitrary::size(&mut random);
            let [first, second] = [(); 2].map(|()| any_word(&mut random, 64));
            let input = (size, first, second);
            let by_model = |call: Call<u64>| {
                let answer = call.check(size, first, second);
                (answer.refusal, answer.result)
            };
            assert_eq!(by_peers::<Check>(input), by_model(CHECK));
            assert_eq!(by_peers::<Excheck>(input), by_model(EXCHECK));
            assert_eq!(by_peers::<MixLeft>(input), by_model(MIX_LEFT));
            assert_eq!(by_peers::<MixRight>(input), by_model(MIX_RIGHT));
            let answer = EXCHANGE.check(size, first, ());
            let by_model = (answer.refusal, answer.result);
            assert_eq!(exchanged_by_peers(size, first), by_model);
        }
    }
}
