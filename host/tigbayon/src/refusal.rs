//! The refusal numbers.

use std::error::Error;
use std::fmt;

/// Why a call was refused. Where several conditions apply to a call, the
/// lowest number is answered.
#[derive(Clone, Copy, Debug, PartialEq, Eq, PartialOrd, Ord, Hash)]
#[non_exhaustive]
#[repr(u8)]
pub enum Refusal {
    /// The width is not 8, 16, 32 or 64.
    Width = 1,
    /// The word or the mask has a one at bit w or above.
    Above = 2,
    /// The controls have a one in an unused bit or stage.
    Unused = 3,
    /// The permutation has not w entries, or the list of a run is not a multiple
    /// of 4 bytes long, or is longer than 4,096 bytes.
    Length = 4,
    /// An entry of the permutation is w or above, or repeated.
    Entry = 5,
    /// The one network named does not realise the permutation.
    NotRealised = 6,
    /// The kind is not 1 to 10, or in kind 5 r1 is not 1 to 4.
    Kind = 7,
    /// The number of a register in use is above 15.
    Register = 8,
    /// The range begins after its end, or ends beyond the words it cuts, or
    /// either list of words is longer than 2,048.
    Range = 9,
    /// The other list of words is shorter than its bits need.
    Short = 10,
    /// A spare bit of the last packed word read is one.
    Spare = 11,
    /// The subword size is not 1, 2, 4, 8, 16 or 32.
    Subword = 12,
    /// The plane has no rows, or no words in a row, or its length is not their
    /// product.
    Plane = 13,
    /// Another run waits, or none does, or the list is not the remainder.
    Waiting = 14,
    /// The guarantees of the four channels sum above the cycles of the frame.
    Frame = 15,
}

impl Refusal {
    /// Every refusal, by rising number.
    pub const ALL: [Refusal; 15] = [
        Refusal::Width,
        Refusal::Above,
        Refusal::Unused,
        Refusal::Length,
        Refusal::Entry,
        Refusal::NotRealised,
        Refusal::Kind,
        Refusal::Register,
        Refusal::Range,
        Refusal::Short,
        Refusal::Spare,
        Refusal::Subword,
        Refusal::Plane,
        Refusal::Waiting,
        Refusal::Frame,
    ];

    /// The number, which is part of the interface.
    ///
    /// ```
    /// assert_eq!(tigbayon::Refusal::Above.number(), 2);
    /// ```
    pub fn number(self) -> u8 {
        self as u8
    }

    fn condition(self) -> &'static str {
        match self {
            Refusal::Width => "width not 8, 16, 32, 64",
            Refusal::Above => "word or mask has a one at bit w or above",
            Refusal::Unused => "a one in an unused control bit or stage",
            Refusal::Length => {
                "permutation not w long, or list not a multiple of 4 up to 4,096 bytes"
            }
            Refusal::Entry => "permutation entry w or above, or repeated",
            Refusal::NotRealised => "permutation not realised by the one network named",
            Refusal::Kind => "kind not 1 to 10, or in kind 5 r1 not 1 to 4",
            Refusal::Register => "register number in use above 15",
            Refusal::Range => "range not within its words, or a list above 2,048 words",
            Refusal::Short => "other list of words shorter than its bits need",
            Refusal::Spare => "spare bit of the last packed word read is one",
            Refusal::Subword => "subword size not 1, 2, 4, 8, 16, 32",
            Refusal::Plane => "no rows, no words in a row, or the plane's length not their product",
            Refusal::Waiting => "another run waits, or none does, or the list is not the remainder",
            Refusal::Frame => "the guarantees sum above the cycles of the frame",
        }
    }

    /// Reads the library's number: 0 where the call was carried out.
    pub(crate) fn check(number: u8) -> Result<(), Refusal> {
        if number == 0 {
            return Ok(());
        }
        let refusal = Refusal::ALL.into_iter().find(|r| r.number() == number);
        Err(refusal.unwrap_or_else(|| panic!("libtigbayon answered unknown refusal {number}")))
    }
}

impl fmt::Display for Refusal {
    fn fmt(&self, f: &mut fmt::Formatter<'_>) -> fmt::Result {
        write!(f, "refusal {}: {}", self.number(), self.condition())
    }
}

impl Error for Refusal {}

#[cfg(test)]
mod tests {
    use super::*;

    #[test]
    fn numbers_are_the_papers_and_are_read_back() {
        for (number, refusal) in (1..).zip(Refusal::ALL) {
            assert_eq!(refusal.number(), number);
            assert_eq!(Refusal::check(number), Err(refusal));
        }
        assert_eq!(Refusal::check(0), Ok(()));
    }

    #[test]
    fn is_shown_with_number_and_condition() {
        let shown = Refusal::Width.to_string();
        assert_eq!(shown, "refusal 1: width not 8, 16, 32, 64");
    }
}
