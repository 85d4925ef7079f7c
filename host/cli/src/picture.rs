//! Pictures of 8 by 8 bits, in characters.

/// The characters of a bit that is zero, and of one that is one.
const DOTS: [char; 2] = ['.', '#'];

/// The columns of a picture, and of the space after it.
const PITCH: usize = 10;

/// A picture.
pub struct Picture {
    /// What stands over it.
    pub name: String,
    /// Its rows from the top, the leftmost bit of each in the highest place.
    pub rows: [u8; 8],
}

/// Pictures side by side, under their names.
pub fn side_by_side(pictures: &[Picture]) -> String {
    let mut lines = line(pictures.iter().map(|picture| picture.name.clone()));
    for r in 0..8 {
        lines += &line(pictures.iter().map(|picture| dots(picture.rows[r])));
    }
    lines
}

/// A line of what stands in each picture, or over it.
fn line(parts: impl Iterator<Item = String>) -> String {
    let parts = parts.map(|part| format!("{part:<PITCH$}"));
    String::from_iter(parts).trim_end().to_string() + "\n"
}

fn dots(row: u8) -> String {
    let bits = (0..8).rev().map(|c| row >> c & 1);
    bits.map(|bit| DOTS[usize::from(bit)]).collect()
}
