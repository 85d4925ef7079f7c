//! Both networks prepared for many words.

use crate::{ffi, Controls, Refusal};

/// A prepared butterfly: its controls are checked and brought to their bits
/// once, and then any number of words is sent through it, none of them refused.
///
/// ```
/// use tigbayon::{route, PreparedButterfly, PreparedInverse};
///
/// let reversal = [7, 6, 5, 4, 3, 2, 1, 0];
/// let routed = route(8, &reversal)?;
/// let there = PreparedButterfly::new(8, &routed.butterfly)?;
/// let back = PreparedInverse::new(8, &routed.inverse)?;
/// let reversed = [0x01, 0x0F, 0xAD].map(|word| back.carry(there.carry(word)));
/// assert_eq!(reversed, [0x80, 0xF0, 0xB5]);
/// # Ok::<(), tigbayon::Refusal>(())
/// ```
#[derive(Clone, Copy, Debug, PartialEq, Eq, Hash)]
pub struct PreparedButterfly {
    swaps: [u64; 6],
}

/// A prepared inverse butterfly, as a [`PreparedButterfly`] is.
#[derive(Clone, Copy, Debug, PartialEq, Eq, Hash)]
pub struct PreparedInverse {
    swaps: [u64; 6],
}

impl PreparedButterfly {
    /// Prepares the butterfly with these controls.
    ///
    /// # Errors
    ///
    /// [`Refusal::Width`] and [`Refusal::Unused`].
    ///
    /// ```
    /// use tigbayon::{Controls, PreparedButterfly, Refusal};
    ///
    /// let unused = Controls::from([0x10, 0, 0, 0, 0, 0]);
    /// assert!(PreparedButterfly::new(16, &unused).is_ok());
    /// assert_eq!(PreparedButterfly::new(8, &unused), Err(Refusal::Unused));
    /// assert_eq!(PreparedButterfly::new(12, &unused), Err(Refusal::Width));
    /// ```
    pub fn new(width: u32, controls: &Controls) -> Result<Self, Refusal> {
        let swaps: Result<_, _> = ffi::tb_prepare_butterfly(width, &controls.stages).into();
        swaps.map(|swaps| PreparedButterfly { swaps })
    }

    /// Sends a word through. For a word of the width that is what
    /// [`butterfly`](crate::butterfly()) answers on the same controls.
    ///
    /// Ones at bit w and above are not refused. They stay at bit w and above,
    /// and the bits below w go as they do without them: clear such ones, before
    /// or after, where a word of the width is wanted.
    ///
    /// ```
    /// use tigbayon::{butterfly, Controls, PreparedButterfly, Refusal};
    ///
    /// let controls = Controls::from([0x7, 0x1, 0x5, 0, 0, 0]);
    /// let prepared = PreparedButterfly::new(8, &controls)?;
    /// for word in 0..=0xFF {
    ///     assert_eq!(butterfly(8, &controls, word), Ok(prepared.carry(word)));
    /// }
    ///
    /// assert_eq!(butterfly(8, &controls, 0x11A), Err(Refusal::Above));
    /// assert_eq!(prepared.carry(0x11A) & 0xFF, prepared.carry(0x1A));
    /// # Ok::<(), tigbayon::Refusal>(())
    /// ```
    pub fn carry(&self, word: u64) -> u64 {
        ffi::tb_butterfly_prepared(&self.swaps, word)
    }

    /// For each of the distances 32, 16, .., 1, ones at the lower bits of the
    /// pairs that swap. At distances w and above there are none; at the others
    /// every pair at bit w and above is marked too.
    ///
    /// ```
    /// use tigbayon::{Controls, PreparedButterfly};
    ///
    /// let all_but_one_pass = Controls::from([0xF, 0xB, 0xF, 0, 0, 0]);
    /// let prepared = PreparedButterfly::new(8, &all_but_one_pass)?;
    /// let below_8 = prepared.swaps().map(|swaps| swaps & 0xFF);
    /// assert_eq!(below_8, [0, 0, 0, 0, 0b0001_0000, 0]);
    /// assert_eq!(prepared.carry(0b0001_0000), 0b0100_0000);
    /// # Ok::<(), tigbayon::Refusal>(())
    /// ```
    pub fn swaps(&self) -> [u64; 6] {
        self.swaps
    }
}

impl PreparedInverse {
    /// Prepares the inverse with these controls.
    ///
    /// # Errors
    ///
    /// [`Refusal::Width`] and [`Refusal::Unused`].
    ///
    /// ```
    /// use tigbayon::{Controls, PreparedInverse, Refusal};
    ///
    /// let unused = Controls::from([0, 0, 0, 1, 0, 0]);
    /// assert!(PreparedInverse::new(16, &unused).is_ok());
    /// assert_eq!(PreparedInverse::new(8, &unused), Err(Refusal::Unused));
    /// assert_eq!(PreparedInverse::new(12, &unused), Err(Refusal::Width));
    /// ```
    pub fn new(width: u32, controls: &Controls) -> Result<Self, Refusal> {
        let swaps: Result<_, _> = ffi::tb_prepare_inverse(width, &controls.stages).into();
        swaps.map(|swaps| PreparedInverse { swaps })
    }

    /// Sends a word through. For a word of the width that is what
    /// [`inverse`](crate::inverse()) answers on the same controls; ones above go
    /// as in [`PreparedButterfly::carry`].
    ///
    /// ```
    /// use tigbayon::{decode, gather, PreparedInverse};
    ///
    /// let mask = 0xAD;
    /// let gathering = PreparedInverse::new(8, &decode(8, mask)?.inverse)?;
    /// for word in 0..=0xFF {
    ///     assert_eq!(gather(8, mask, word)?.word, gathering.carry(word & mask));
    /// }
    /// # Ok::<(), tigbayon::Refusal>(())
    /// ```
    pub fn carry(&self, word: u64) -> u64 {
        ffi::tb_inverse_prepared(&self.swaps, word)
    }

    /// The pairs that swap, as in [`PreparedButterfly::swaps`]: of the distances
    /// 32, 16, .., 1, though a word meets the last of them first.
    ///
    /// ```
    /// use tigbayon::{Controls, PreparedButterfly, PreparedInverse};
    ///
    /// let there = Controls::from([0x7, 0x1, 0x5, 0, 0, 0]);
    /// let back = Controls::from([0x5, 0x1, 0x7, 0, 0, 0]);
    /// let butterfly = PreparedButterfly::new(8, &there)?;
    /// let inverse = PreparedInverse::new(8, &back)?;
    /// assert_eq!(butterfly.swaps(), inverse.swaps());
    /// assert_eq!(inverse.carry(butterfly.carry(0xB6)), 0xB6);
    /// # Ok::<(), tigbayon::Refusal>(())
    /// ```
    pub fn swaps(&self) -> [u64; 6] {
        self.swaps
    }
}
