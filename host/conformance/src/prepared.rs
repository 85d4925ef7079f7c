//! Words sent through a prepared network, beside their model.

use crate::call::{Call, PREPARE_BUTTERFLY, PREPARE_INVERSE};
use crate::controls::Controls;
use crate::guards::only_read_array;
use model::prepared::Swaps;
use tigbayon::{PreparedButterfly, PreparedInverse, Refusal};

/// A network that the wrapper prepared.
type Carry = Box<dyn Fn(u64) -> u64>;

/// A call of six words of swaps and of a word, which refuses nothing: as the
/// archive exports it and as the model defines it. The wrapper offers it on a
/// network that it prepared itself.
pub struct Passage {
    /// The call's name.
    pub name: &'static str,
    prepare: Call<Controls, Swaps, ()>,
    raw: extern "C" fn(&Swaps, u64) -> u64,
    wrapped: fn(u32, Controls) -> Result<Carry, Refusal>,
    model: fn(&Swaps, u64) -> u64,
}

/// Through the butterfly.
pub const THROUGH_BUTTERFLY: Passage = Passage {
    name: "butterfly_prepared",
    prepare: PREPARE_BUTTERFLY,
    raw: tigbayon::tb_butterfly_prepared,
    wrapped: |width, controls| {
        let prepared = PreparedButterfly::new(width, &controls.into())?;
        Ok(Box::new(move |word| prepared.carry(word)))
    },
    model: model::prepared::butterfly_prepared,
};

/// Through the inverse butterfly.
pub const THROUGH_INVERSE: Passage = Passage {
    name: "inverse_prepared",
    prepare: PREPARE_INVERSE,
    raw: tigbayon::tb_inverse_prepared,
    wrapped: |width, controls| {
        let prepared = PreparedInverse::new(width, &controls.into())?;
        Ok(Box::new(move |word| prepared.carry(word)))
    },
    model: model::prepared::inverse_prepared,
};

/// Through either, in the order of [`crate::call::NETWORKS`].
pub const PASSAGES: [Passage; 2] = [THROUGH_BUTTERFLY, THROUGH_INVERSE];

impl Passage {
    /// Makes the call on any six words, panics unless the model agrees, and
    /// hands the result back.
    pub fn check(&self, swaps: Swaps, word: u64) -> u64 {
        let library = only_read_array(swaps, |swaps| (self.raw)(swaps, word));
        let model = (self.model)(&swaps, word);
        assert!(
            library == model,
            "{} {swaps:x?} {word:x}: library {library:x}, model {model:x}",
            self.name
        );
        model
    }

    /// Prepares the network all three ways, for controls that must be accepted.
    /// Answers the call on it, which panics unless they agree, and hands the
    /// result back.
    pub fn prepared(&self, width: u32, controls: Controls) -> impl Fn(u64) -> u64 + '_ {
        let swaps = self.prepare.result(width, controls, ());
        let wrapped = (self.wrapped)(width, controls).expect("accepted");
        move |word| {
            let library = self.check(swaps, word);
            let wrapped = wrapped(word);
            assert!(
                wrapped == library,
                "{} {width} {controls:x?} {word:x}: library {library:x}, wrapper {wrapped:x}",
                self.name
            );
            library
        }
    }
}
