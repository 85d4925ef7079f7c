//! A plane of pixels, before and after its lone ones went out.

/// What becomes of a pixel.
#[derive(Clone, Copy, Debug, PartialEq, Eq)]
pub enum Pixel {
    /// It is dark.
    Dark,
    /// It is lit, and stays so.
    Lit,
    /// It was lit, and went out.
    Out,
}

/// A plane before and after the call.
pub struct Despeckled {
    /// How many words a row has.
    pub row_words: usize,
    /// Its words before, row after row.
    pub before: Vec<u64>,
    /// Its words after; others may follow.
    pub after: Vec<u64>,
}

impl Despeckled {
    /// How many rows it has.
    pub fn rows(&self) -> usize {
        self.before.len() / self.row_words
    }

    /// How many columns it has.
    pub fn columns(&self) -> usize {
        self.row_words * u64::BITS as usize
    }

    /// What becomes of the pixel at this row from the top, this column from the left.
    pub fn pixel(&self, row: usize, column: usize) -> Pixel {
        let number = row * self.row_words + column / 64;
        let is_lit = |words: &[u64]| words[number] << (column % 64) >> 63 == 1;
        match (is_lit(&self.before), is_lit(&self.after)) {
            (_, true) => Pixel::Lit,
            (true, false) => Pixel::Out,
            (false, false) => Pixel::Dark,
        }
    }

    /// Rows and words, in words.
    pub fn shape(&self) -> String {
        let [rows, words] = [(self.rows(), "row"), (self.row_words, "word")].map(counted);
        format!("{rows} of {words}")
    }

    /// How many pixels were lit, and how many of them went out.
    pub fn counts(&self) -> String {
        let after = &self.after[..self.before.len()];
        let [before, after] = [&self.before, after].map(lit);
        format!(
            "{} lit, {} went out",
            counted((before, "pixel")),
            before - after
        )
    }
}

/// How many pixels are lit.
fn lit(words: &[u64]) -> usize {
    words.iter().map(|word| word.count_ones() as usize).sum()
}

/// So many of these.
fn counted((count, name): (usize, &str)) -> String {
    let plural = if count == 1 { "" } else { "s" };
    format!("{count} {name}{plural}")
}

#[cfg(test)]
mod tests {
    use super::*;

    fn despeckled() -> Despeckled {
        Despeckled {
            row_words: 2,
            before: vec![1 << 63, 1, 0, 3],
            after: vec![0, 1, 0, 3],
        }
    }

    #[test]
    fn pixels_by_row_and_column() {
        let despeckled = despeckled();
        assert_eq!((despeckled.rows(), despeckled.columns()), (2, 128));
        for row in 0..2 {
            for column in 0..128 {
                let expected = match (row, column) {
                    (0, 0) => Pixel::Out,
                    (0, 127) | (1, 126 | 127) => Pixel::Lit,
                    _ => Pixel::Dark,
                };
                assert_eq!(despeckled.pixel(row, column), expected);
            }
        }
    }

    #[test]
    fn in_words() {
        let despeckled = despeckled();
        assert_eq!(despeckled.shape(), "2 rows of 2 words");
        assert_eq!(despeckled.counts(), "4 pixels lit, 1 went out");
        let one = Despeckled {
            row_words: 1,
            before: vec![1],
            after: vec![0],
        };
        assert_eq!(one.shape(), "1 row of 1 word");
        assert_eq!(one.counts(), "1 pixel lit, 1 went out");
    }
}
