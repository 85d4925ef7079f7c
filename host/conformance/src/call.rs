//! A call of the library beside its model.

use crate::controls::Controls;
use crate::guards::{only_read, only_read_array};
use model::decoder::Decoded;
use model::gather::Gathered;
use model::groups::Masks;
use model::prepared::Swaps;
use model::refusal::Answer;
use model::routing::Routed;
use std::fmt::Debug;
use std::iter::zip;
use tigbayon::{PreparedButterfly, PreparedInverse, Refusal};
use tigbayon::{TbCarried, TbControls1, TbControls2, TbGathered, TbMasks, TbPrepared};

/// What a call goes by: a mask, controls or the first of two words, which are handed
/// over, or a permutation, which is lent.
pub trait By {
    /// It, as the call takes it.
    type Input<'a>: Copy + Debug;
}

impl By for u64 {
    type Input<'a> = u64;
}

impl By for Controls {
    type Input<'a> = Controls;
}

impl By for [u8] {
    type Input<'a> = &'a [u8];
}

type Inputs<X, W, A> = for<'a> fn(u32, <X as By>::Input<'a>, W) -> A;

/// A call of a width or of a size of subwords, of a mask, controls, a permutation or
/// a first word (`X`), and of a word (`W`, which is `()` where there is none): as the
/// archive exports it, as the wrapper offers it, and as the model defines it.
pub struct Call<X: By + ?Sized, R = u64, W = u64> {
    /// The call's name.
    pub name: &'static str,
    raw: Inputs<X, W, Answer<R>>,
    wrapped: Inputs<X, W, Result<R, Refusal>>,
    model: Inputs<X, W, Answer<R>>,
}

/// Gather.
pub const GATHER: Call<u64, Gathered> = Call {
    name: "gather",
    raw: |width, mask, word| gathered(tigbayon::tb_gather(width, mask, word)),
    wrapped: |width, mask, word| tigbayon::gather(width, mask, word).map(wrapped_gathered),
    model: model::gather::gather,
};

/// Scatter.
pub const SCATTER: Call<u64, Gathered> = Call {
    name: "scatter",
    raw: |width, mask, word| gathered(tigbayon::tb_scatter(width, mask, word)),
    wrapped: |width, mask, word| tigbayon::scatter(width, mask, word).map(wrapped_gathered),
    model: model::gather::scatter,
};

/// Group.
pub const GROUP: Call<u64, Gathered> = Call {
    name: "group",
    raw: |width, mask, word| gathered(tigbayon::tb_group(width, mask, word)),
    wrapped: |width, mask, word| tigbayon::group(width, mask, word).map(wrapped_gathered),
    model: model::gather::group,
};

/// The butterfly.
pub const BUTTERFLY: Call<Controls> = Call {
    name: "butterfly",
    raw: |width, controls, word| {
        carried(only_read_array(controls, |stages| {
            tigbayon::tb_butterfly(width, stages, word)
        }))
    },
    wrapped: |width, controls, word| tigbayon::butterfly(width, &controls.into(), word),
    model: |width, controls, word| model::network::butterfly(width, &controls, word),
};

/// The inverse butterfly.
pub const INVERSE: Call<Controls> = Call {
    name: "inverse",
    raw: |width, controls, word| {
        carried(only_read_array(controls, |stages| {
            tigbayon::tb_inverse(width, stages, word)
        }))
    },
    wrapped: |width, controls, word| tigbayon::inverse(width, &controls.into(), word),
    model: |width, controls, word| model::network::inverse(width, &controls, word),
};

/// Preparing the butterfly.
pub const PREPARE_BUTTERFLY: Call<Controls, Swaps, ()> = Call {
    name: "prepare_butterfly",
    raw: |width, controls, ()| {
        prepared(only_read_array(controls, |stages| {
            tigbayon::tb_prepare_butterfly(width, stages)
        }))
    },
    wrapped: |width, controls, ()| {
        PreparedButterfly::new(width, &controls.into()).map(|prepared| prepared.swaps())
    },
    model: |width, controls, ()| model::prepared::prepare_butterfly(width, &controls),
};

/// Preparing the inverse butterfly.
pub const PREPARE_INVERSE: Call<Controls, Swaps, ()> = Call {
    name: "prepare_inverse",
    raw: |width, controls, ()| {
        prepared(only_read_array(controls, |stages| {
            tigbayon::tb_prepare_inverse(width, stages)
        }))
    },
    wrapped: |width, controls, ()| {
        PreparedInverse::new(width, &controls.into()).map(|prepared| prepared.swaps())
    },
    model: |width, controls, ()| model::prepared::prepare_inverse(width, &controls),
};

/// The decoder.
pub const DECODE: Call<u64, Decoded, ()> = Call {
    name: "decode",
    raw: |width, mask, ()| decoded(tigbayon::tb_decode(width, mask)),
    wrapped: |width, mask, ()| {
        let decoded = tigbayon::decode(width, mask)?;
        Ok(Decoded {
            butterfly: decoded.butterfly.stages,
            inverse: decoded.inverse.stages,
        })
    },
    model: |width, mask, ()| model::decoder::decode(width, mask),
};

/// Routing through both networks.
pub const ROUTE: Call<[u8], Routed, ()> = Call {
    name: "route",
    raw: |width, permutation, ()| {
        routed(only_read(permutation, |permutation| {
            tigbayon::tb_route(width, permutation)
        }))
    },
    wrapped: |width, permutation, ()| {
        let routed = tigbayon::route(width, permutation)?;
        Ok(Routed {
            butterfly: routed.butterfly.stages,
            inverse: routed.inverse.stages,
        })
    },
    model: |width, permutation, ()| model::routing::route(width, permutation),
};

/// Routing through the butterfly alone.
pub const ROUTE_BUTTERFLY: Call<[u8], Controls, ()> = Call {
    name: "route_butterfly",
    raw: |width, permutation, ()| {
        controls(only_read(permutation, |permutation| {
            tigbayon::tb_route_butterfly(width, permutation)
        }))
    },
    wrapped: |width, permutation, ()| {
        tigbayon::route_butterfly(width, permutation).map(|controls| controls.stages)
    },
    model: |width, permutation, ()| model::routing::route_butterfly(width, permutation),
};

/// Routing through the inverse alone.
pub const ROUTE_INVERSE: Call<[u8], Controls, ()> = Call {
    name: "route_inverse",
    raw: |width, permutation, ()| {
        controls(only_read(permutation, |permutation| {
            tigbayon::tb_route_inverse(width, permutation)
        }))
    },
    wrapped: |width, permutation, ()| {
        tigbayon::route_inverse(width, permutation).map(|controls| controls.stages)
    },
    model: |width, permutation, ()| model::routing::route_inverse(width, permutation),
};

/// Routing by groups.
pub const ROUTE_GROUPS: Call<[u8], Masks, ()> = Call {
    name: "route_groups",
    raw: |width, permutation, ()| {
        masks(only_read(permutation, |permutation| {
            tigbayon::tb_route_groups(width, permutation)
        }))
    },
    wrapped: |width, permutation, ()| tigbayon::route_groups(width, permutation),
    model: |width, permutation, ()| model::groups::route_groups(width, permutation),
};

/// Check.
pub const CHECK: Call<u64> = Call {
    name: "check",
    raw: |size, first, second| carried(tigbayon::tb_check(size, first, second)),
    wrapped: tigbayon::check,
    model: model::subwords::check,
};

/// Excheck.
pub const EXCHECK: Call<u64> = Call {
    name: "excheck",
    raw: |size, first, second| carried(tigbayon::tb_excheck(size, first, second)),
    wrapped: tigbayon::excheck,
    model: model::subwords::excheck,
};

/// Mix left.
pub const MIX_LEFT: Call<u64> = Call {
    name: "mix_left",
    raw: |size, first, second| carried(tigbayon::tb_mix_left(size, first, second)),
    wrapped: tigbayon::mix_left,
    model: model::subwords::mix_left,
};

/// Mix right.
pub const MIX_RIGHT: Call<u64> = Call {
    name: "mix_right",
    raw: |size, first, second| carried(tigbayon::tb_mix_right(size, first, second)),
    wrapped: tigbayon::mix_right,
    model: model::subwords::mix_right,
};

/// Exchange.
pub const EXCHANGE: Call<u64, u64, ()> = Call {
    name: "exchange",
    raw: |size, word, ()| carried(tigbayon::tb_exchange(size, word)),
    wrapped: |size, word, ()| tigbayon::exchange(size, word),
    model: |size, word, ()| model::subwords::exchange(size, word),
};

/// Every call of width, mask and word.
pub const MASK_CALLS: [Call<u64, Gathered>; 3] = [GATHER, SCATTER, GROUP];

/// Both networks.
pub const NETWORKS: [Call<Controls>; 2] = [BUTTERFLY, INVERSE];

/// Preparing either, in the same order.
pub const PREPARE: [Call<Controls, Swaps, ()>; 2] = [PREPARE_BUTTERFLY, PREPARE_INVERSE];

/// Routing through one network, in the same order.
pub const ROUTE_ONE: [Call<[u8], Controls, ()>; 2] = [ROUTE_BUTTERFLY, ROUTE_INVERSE];

/// Every call of the subwords of two words.
pub const PAIR_CALLS: [Call<u64>; 4] = [CHECK, EXCHECK, MIX_LEFT, MIX_RIGHT];

impl<X, R, W> Call<X, R, W>
where
    X: By + ?Sized,
    R: Copy + Debug + PartialEq,
    W: Copy + Debug,
{
    /// Makes the call all three ways, panics unless they agree in every part
    /// of the answer, and hands the answer back.
    pub fn check(&self, width: u32, by: X::Input<'_>, word: W) -> Answer<R> {
        let input = || format!("{} {width} {by:x?} {word:x?}", self.name);
        let library = (self.raw)(width, by, word);
        let model = (self.model)(width, by, word);
        let wrapped = (self.wrapped)(width, by, word);
        assert_agree(input, library, model, wrapped);
        model
    }

    /// The checked result of a call that must be carried out.
    pub fn result(&self, width: u32, by: X::Input<'_>, word: W) -> R {
        let answer = self.check(width, by, word);
        assert_eq!(answer.refusal, 0, "{} is carried out", self.name);
        answer.result
    }
}

impl Call<u64, Gathered> {
    /// The word of such a result.
    pub fn word(&self, width: u32, mask: u64, word: u64) -> u64 {
        self.result(width, mask, word).word
    }
}

/// Panics unless library, model and wrapper answer this input alike.
pub(crate) fn assert_agree<R: Copy + Debug + PartialEq>(
    input: impl Fn() -> String,
    library: Answer<R>,
    model: Answer<R>,
    wrapped: Result<R, Refusal>,
) {
    assert!(
        library == model,
        "{}: library {library:x?}, model {model:x?}",
        input()
    );
    let wrapped = wrapped.map_err(Refusal::number);
    let expected = match library.refusal {
        0 => Ok(library.result),
        number => Err(number),
    };
    assert!(
        wrapped == expected,
        "{}: library {expected:x?}, wrapper {wrapped:x?}",
        input()
    );
}

/// Checks these calls on one input.
pub fn check_all<X, R>(calls: &[Call<X, R>], width: u32, by: X::Input<'_>, word: u64)
where
    X: By,
    R: Copy + Debug + PartialEq,
{
    for call in calls {
        call.check(width, by, word);
    }
}

/// The checked controls of a mask that must be accepted.
pub fn decode(width: u32, mask: u64) -> Decoded {
    DECODE.result(width, mask, ())
}

/// The checked controls of a permutation that must be accepted.
pub fn route(width: u32, permutation: &[u8]) -> Routed {
    ROUTE.result(width, permutation, ())
}

/// The checked masks of a permutation that must be accepted.
pub fn route_groups(width: u32, permutation: &[u8]) -> Masks {
    ROUTE_GROUPS.result(width, permutation, ())
}

/// The word grouped by these masks in turn, each of which must be accepted.
pub fn grouped(width: u32, masks: &[u64], word: u64) -> u64 {
    masks.iter().fold(word, |word, &mask| {
        let grouped = tigbayon::group(width, mask, word);
        grouped.expect("accepted").word
    })
}

/// The checked word that these networks make of this one in turn, each on its
/// controls, which must be accepted.
pub fn through(networks: &[Call<Controls>], width: u32, set: &[Controls], word: u64) -> u64 {
    zip(networks, set).fold(word, |word, (network, &controls)| {
        network.result(width, controls, word)
    })
}

/// The bit that each place takes by them: every single bit is sent through.
pub fn sources(networks: &[Call<Controls>], width: u32, set: &[Controls]) -> Vec<u8> {
    let carried = (0..width).map(|bit| through(networks, width, set, 1 << bit));
    let carried: Vec<u64> = carried.collect();
    let source = |place: u32| {
        let bit = carried.iter().position(|&word| word == 1 << place);
        bit.expect("a bit for every place") as u8
    };
    (0..width).map(source).collect()
}

fn gathered(answer: TbGathered) -> Answer<Gathered> {
    let TbGathered {
        refusal,
        count,
        word,
    } = answer;
    let result = Gathered { count, word };
    Answer { refusal, result }
}

fn wrapped_gathered(tigbayon::Gathered { count, word }: tigbayon::Gathered) -> Gathered {
    Gathered { count, word }
}

fn carried(TbCarried { refusal, word }: TbCarried) -> Answer<u64> {
    let result = word;
    Answer { refusal, result }
}

fn prepared(TbPrepared { refusal, swaps }: TbPrepared) -> Answer<Swaps> {
    let result = swaps;
    Answer { refusal, result }
}

fn decoded(answer: TbControls2) -> Answer<Decoded> {
    let TbControls2 {
        refusal,
        butterfly,
        inverse,
    } = answer;
    let result = Decoded { butterfly, inverse };
    Answer { refusal, result }
}

fn routed(answer: TbControls2) -> Answer<Routed> {
    let TbControls2 {
        refusal,
        butterfly,
        inverse,
    } = answer;
    let result = Routed { butterfly, inverse };
    Answer { refusal, result }
}

fn controls(TbControls1 { refusal, stages }: TbControls1) -> Answer<Controls> {
    let result = stages;
    Answer { refusal, result }
}

fn masks(TbMasks { refusal, masks }: TbMasks) -> Answer<Masks> {
    let result = masks;
    Answer { refusal, result }
}
