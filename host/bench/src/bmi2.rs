//! The processor's own gather and scatter, where it has them, and packing by
//! them.
#![allow(unsafe_code)]

use crate::packing::OfWords;
#[cfg(target_arch = "x86_64")]
use crate::packing::{pack_by, unpack_by};

#[cfg(target_arch = "x86_64")]
use std::arch::x86_64::{_pdep_u64, _pext_u64};

/// A function of mask and word.
pub type OfMaskAndWord = fn(u64, u64) -> u64;

/// Gather by the instruction pext.
pub fn pext() -> Option<OfMaskAndWord> {
    #[cfg(target_arch = "x86_64")]
    if std::is_x86_feature_detected!("bmi2") {
        // Safe: the processor has it.
        return Some(|mask, word| unsafe { bmi2_pext(mask, word) });
    }
    None
}

/// Scatter by the instruction pdep.
pub fn pdep() -> Option<OfMaskAndWord> {
    #[cfg(target_arch = "x86_64")]
    if std::is_x86_feature_detected!("bmi2") {
        // Safe: the processor has it.
        return Some(|mask, word| unsafe { bmi2_pdep(mask, word) });
    }
    None
}

/// Pack by the instruction pext.
pub fn pack() -> Option<OfWords> {
    #[cfg(target_arch = "x86_64")]
    if std::is_x86_feature_detected!("bmi2") {
        // Safe: the processor has it.
        return Some(|mask, words, out| unsafe { bmi2_pack(mask, words, out) });
    }
    None
}

/// Unpack by the instruction pdep.
pub fn unpack() -> Option<OfWords> {
    #[cfg(target_arch = "x86_64")]
    if std::is_x86_feature_detected!("bmi2") {
        // Safe: the processor has it.
        return Some(|mask, packed, out| unsafe { bmi2_unpack(mask, packed, out) });
    }
    None
}

#[cfg(target_arch = "x86_64")]
#[target_feature(enable = "bmi2")]
unsafe fn bmi2_pack(mask: u64, words: &[u64], out: &mut [u64]) -> u64 {
    pack_by(mask, words, out, |word| _pext_u64(word, mask))
}

#[cfg(target_arch = "x86_64")]
#[target_feature(enable = "bmi2")]
unsafe fn bmi2_unpack(mask: u64, packed: &[u64], out: &mut [u64]) -> u64 {
    unpack_by(mask, packed, out, |field| _pdep_u64(field, mask))
}

#[cfg(target_arch = "x86_64")]
#[target_feature(enable = "bmi2")]
unsafe fn bmi2_pext(mask: u64, word: u64) -> u64 {
    _pext_u64(word, mask)
}

#[cfg(target_arch = "x86_64")]
#[target_feature(enable = "bmi2")]
unsafe fn bmi2_pdep(mask: u64, word: u64) -> u64 {
    _pdep_u64(word, mask)
}
