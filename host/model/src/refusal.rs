//! Refused calls ("Calls turned back" of paper 01, requests 02, 05, 06, 10 and 11 of
//! paper 02): the numbers, and the lowest of them.

/// The answer's number where the call is carried out.
pub const NONE: u8 = 0;
/// "width not 8, 16, 32, 64"
pub const WIDTH: u8 = 1;
/// "word or mask has a one at line w or above"
pub const ABOVE: u8 = 2;
/// "a one in an unused setting bit or column"
pub const UNUSED: u8 = 3;
/// "order not w long; run list not a multiple of 4 bytes, or above 4,096
/// bytes"
pub const LENGTH: u8 = 4;
/// "order entry w or above, or repeated"
pub const ENTRY: u8 = 5;
/// "order not realised by the one network named"
pub const NOT_REALISED: u8 = 6;
/// "kind not 1 to 10, or in kind 5 r1 not 1 to 4"
pub const KIND: u8 = 7;
/// "a register number in use above 15"
pub const REGISTER: u8 = 8;
/// "a above b, b above the length of the strip that a and b cut, or either
/// strip above 2,048 words"
pub const RANGE: u8 = 9;
/// "the other strip shorter than its bits need"
pub const SHORT: u8 = 10;
/// Paper 02: "a spare bit is one"
pub const SPARE: u8 = 11;
/// Paper 02: "another subword size"
pub const SUBWORD: u8 = 12;
/// Paper 02: "h or v is zero, or v×h differs from the first strip's length"
pub const PLANE: u8 = 13;
/// Paper 02: "another run waits, or none does, or the list is not the remainder"
pub const WAITING: u8 = 14;
/// Paper 02: "the guarantees sum above F"
pub const FRAME: u8 = 15;

/// The answer of a call.
#[derive(Clone, Copy, Debug, PartialEq, Eq)]
pub struct Answer<R> {
    /// The refusal's number, 0 where the call is carried out.
    pub refusal: u8,
    /// The rest of the answer.
    pub result: R,
}

impl<R: Default> Answer<R> {
    /// Refuses the call if one of the conditions applies, or else carries it
    /// out.
    pub fn of(conditions: &[(u8, bool)], carry_out: impl FnOnce() -> R) -> Self {
        let refusal = lowest(conditions);
        if refusal != NONE {
            return Answer::refused(refusal);
        }
        let result = carry_out();
        Answer { refusal, result }
    }

    /// "The rest of the answer is zeros"
    pub fn refused(refusal: u8) -> Self {
        let result = R::default();
        Answer { refusal, result }
    }
}

/// "The lowest number that applies to any part of the call is returned."
///
/// Takes each number with whether its condition applies; [`NONE`] if none does.
pub fn lowest(conditions: &[(u8, bool)]) -> u8 {
    let applying = conditions.iter().filter(|&&(_, applies)| applies);
    applying.map(|&(number, _)| number).min().unwrap_or(NONE)
}

/// "A width w is 8, 16, 32 or 64"
pub const WIDTHS: [u32; 4] = [8, 16, 32, 64];

/// Whether it is one of them.
pub fn is_width(width: u32) -> bool {
    WIDTHS.contains(&width)
}

/// "has a one at line w or above"
pub fn has_one_at_or_above(width: u32, word: u64) -> bool {
    (0..64).any(|p| p >= width && word >> p & 1 == 1)
}
