//! A word as its bits.
//!
//! > Line: one bit of a word, counted from 0 at the right.
//! >
//! > Mask: a word whose ones mark lines.

/// Bits 0 to `width` - 1 of `word`, bit 0 first.
pub fn bits_of(width: usize, word: u64) -> Vec<bool> {
    (0..width).map(|p| word >> p & 1 == 1).collect()
}

/// The word with these bits, bit 0 first.
pub fn word_of(bits: &[bool]) -> u64 {
    let mut word = 0;
    for (p, &bit) in bits.iter().enumerate() {
        if bit {
            word |= 1 << p;
        }
    }
    word
}

/// "the marked lines, from the right, are m0, m1, .."
pub fn marked(mask: &[bool]) -> Vec<usize> {
    (0..mask.len()).filter(|&p| mask[p]).collect()
}

/// "the unmarked lines in their order"
pub fn unmarked(mask: &[bool]) -> Vec<usize> {
    (0..mask.len()).filter(|&p| !mask[p]).collect()
}
