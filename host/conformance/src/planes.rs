//! Bit planes beside their model.

use crate::guards::only_read_array;
pub use model::planes::Words;
use std::array;
use tigbayon::TbPlanes;

/// A call of eight words, which refuses nothing: as the archive exports it, as
/// the wrapper offers it, and as the model defines it.
pub struct Conversion {
    /// The call's name.
    pub name: &'static str,
    raw: extern "C" fn(&Words) -> TbPlanes,
    wrapped: fn(&Words) -> Words,
    model: fn(&Words) -> Words,
}

/// Bytes to planes.
pub const TO_PLANES: Conversion = Conversion {
    name: "to_planes",
    raw: tigbayon::tb_to_planes,
    wrapped: tigbayon::to_planes,
    model: model::planes::to_planes,
};

/// Planes to bytes.
pub const FROM_PLANES: Conversion = Conversion {
    name: "from_planes",
    raw: tigbayon::tb_from_planes,
    wrapped: tigbayon::from_planes,
    model: model::planes::from_planes,
};

impl Conversion {
    /// Makes the call all three ways, panics unless they agree, and hands the
    /// result back.
    pub fn check(&self, words: Words) -> Words {
        let library = only_read_array(words, |words| (self.raw)(words)).words;
        let model = (self.model)(&words);
        let wrapped = (self.wrapped)(&words);
        for (by, answer) in [("library", library), ("wrapper", wrapped)] {
            assert!(
                answer == model,
                "{} {words:x?}: {by} {answer:x?}, model {model:x?}",
                self.name
            );
        }
        model
    }
}

/// The words that hold these bytes, byte 0 in the low end of word 0.
pub fn words_of(bytes: [u8; 64]) -> Words {
    array::from_fn(|k| {
        let eight = array::from_fn(|i| bytes[8 * k + i]);
        u64::from_le_bytes(eight)
    })
}

/// The same words, with one bit of them turned over.
pub fn turned_over(mut words: Words, word: usize, bit: u32) -> Words {
    words[word] ^= 1 << bit;
    words
}
