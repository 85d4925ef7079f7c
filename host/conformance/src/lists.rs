//! Calls that read one list of words and write into another, beside their models.

use crate::call::assert_agree;
use crate::guards::{lent, only_read};
use model::refusal::Answer;
use std::fmt::Debug;
use tigbayon::Refusal;

/// Such a call, with its other arguments: as the archive exports it, as the wrapper
/// offers it, and as the model defines it.
pub(crate) struct ListCall<L, W, M> {
    pub raw: L,
    pub wrapped: W,
    pub model: M,
}

impl<L, W, M> ListCall<L, W, M> {
    /// Makes the call all three ways, panics unless they agree in every part of the
    /// answer and in every word of the second list, hands the answer back and leaves
    /// the words so.
    pub fn check<R>(self, name: impl Fn() -> String, first: &[u64], out: &mut [u64]) -> Answer<R>
    where
        R: Copy + Debug + PartialEq,
        L: FnOnce(&[u64], &mut [u64]) -> Answer<R>,
        W: FnOnce(&[u64], &mut [u64]) -> Result<R, Refusal>,
        M: FnOnce(&[u64], &mut [u64]) -> Answer<R>,
    {
        let input = || format!("{} {first:x?} {out:x?}", name());
        let (library, written) = lent(out, |out| only_read(first, |first| (self.raw)(first, out)));
        let (wrapped, wrapped_written) = lent(out, |out| (self.wrapped)(first, out));
        let (model, expected) = lent(out, |out| (self.model)(first, out));
        assert_agree(input, library, model, wrapped);
        for (by, written) in [("library", written), ("wrapper", wrapped_written)] {
            assert!(
                written == expected,
                "{}: {by} {written:x?}, model {expected:x?}",
                input()
            );
        }
        out.copy_from_slice(&expected);
        model
    }
}
