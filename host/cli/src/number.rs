//! Numbers as they are written on the command line.

/// How numbers are written.
#[derive(Clone, Copy, Debug, PartialEq, Eq)]
pub enum Base {
    /// Counts, register numbers and entries of permutations.
    Decimal,
    /// Words, masks, controls and the enable byte; `0x` before the digits may be left
    /// out.
    Hexadecimal,
}

impl Base {
    /// Reads a number, if the text is one and fits in its type.
    pub fn read<T: TryFrom<u64>>(self, text: &str) -> Option<T> {
        let (radix, digits) = match self {
            Base::Decimal => (10, text),
            Base::Hexadecimal => (16, text.strip_prefix("0x").unwrap_or(text)),
        };
        // The standard parser would let a sign pass.
        if !digits.chars().all(|digit| digit.is_digit(radix)) {
            return None;
        }
        let number = u64::from_str_radix(digits, radix).ok()?;
        T::try_from(number).ok()
    }

    /// What numbers of the type look like.
    pub fn expected<T>(self) -> String {
        let greatest = u64::MAX >> (u64::BITS - 8 * size_of::<T>() as u32);
        match self {
            Base::Decimal => format!("a decimal number from 0 to {greatest}"),
            Base::Hexadecimal => format!("a hexadecimal number up to {}", hex(greatest)),
        }
    }
}

/// A word as the papers print it.
pub fn hex(word: u64) -> String {
    format!("{word:#X}")
}

/// Numbers as a list that can be given as an argument again.
pub fn list(numbers: impl IntoIterator<Item = String>) -> String {
    Vec::from_iter(numbers).join(",")
}

/// Words as such a list.
pub fn hex_list<T: Copy + Into<u64>>(words: &[T]) -> String {
    list(words.iter().map(|&word| hex(word.into())))
}

#[cfg(test)]
mod tests {
    use super::*;

    #[test]
    fn hexadecimal_with_and_without_prefix() {
        for text in ["0xAD", "0xad", "AD", "0x00AD", "00000000000000000000AD"] {
            assert_eq!(Base::Hexadecimal.read(text), Some(0xAD_u64), "{text}");
        }
        assert_eq!(hex(0xAD), "0xAD");
        assert_eq!(hex(0), "0x0");
    }

    #[test]
    fn what_is_no_number_or_does_not_fit() {
        for text in ["", "0x", "+1", "-1", "1_0", "0x0x1", " 1", "1F"] {
            assert_eq!(Base::Decimal.read::<u64>(text), None, "{text}");
        }
        for text in ["", "0x", "+1", "-1", "0x+1", "0x0x1", "G", "1_0"] {
            assert_eq!(Base::Hexadecimal.read::<u64>(text), None, "{text}");
        }
        assert_eq!(Base::Decimal.read("255"), Some(u8::MAX));
        assert_eq!(Base::Decimal.read::<u8>("256"), None);
        assert_eq!(Base::Hexadecimal.read("FFFFFFFFFFFFFFFF"), Some(u64::MAX));
        assert_eq!(Base::Hexadecimal.read::<u64>("10000000000000000"), None);
    }

    #[test]
    fn what_is_expected() {
        let [byte, stage] = [
            Base::Decimal.expected::<u8>(),
            Base::Hexadecimal.expected::<u32>(),
        ];
        assert_eq!(byte, "a decimal number from 0 to 255");
        assert_eq!(stage, "a hexadecimal number up to 0xFFFFFFFF");
    }
}
