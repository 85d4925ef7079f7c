//! The bits' paths from place to place.

/// The paths of all bits: through the stages of networks, or through groups step by step.
#[derive(Clone, Debug, PartialEq, Eq)]
pub struct Paths {
    by_bit: Vec<Vec<u32>>,
}

/// From each bit's places before every stage or step, and at the end; from bit 0 up.
impl FromIterator<Vec<u32>> for Paths {
    fn from_iter<I: IntoIterator<Item = Vec<u32>>>(paths: I) -> Self {
        let by_bit = paths.into_iter().collect();
        Paths { by_bit }
    }
}

impl Paths {
    /// A bit's places before every stage or step, and at the end.
    pub fn of(&self, bit: u32) -> &[u32] {
        &self.by_bit[bit as usize]
    }

    /// Where a bit ends.
    pub fn end(&self, bit: u32) -> u32 {
        let path = self.of(bit);
        path[path.len() - 1]
    }

    /// Where a bit ends, in words.
    pub fn journey(&self, bit: u32) -> String {
        format!("bit {bit}, to place {}", self.end(bit))
    }

    /// The bit at each place before the stage or step of this number.
    pub fn contents(&self, number: usize) -> Vec<u32> {
        self.by_place(|bit| self.of(bit)[number])
    }

    /// The bit that each place takes.
    pub fn sources(&self) -> Vec<u32> {
        self.by_place(|bit| self.end(bit))
    }

    fn by_place(&self, place: impl Fn(u32) -> u32) -> Vec<u32> {
        let mut bits: Vec<u32> = (0..self.by_bit.len() as u32).collect();
        bits.sort_by_key(|&bit| place(bit));
        bits
    }

    /// Of the bits below `count`, the one that is taken farthest; the lowest of
    /// them, or 0.
    pub fn farthest(&self, count: u32) -> u32 {
        let distance = |&bit: &u32| self.end(bit).abs_diff(bit);
        let downwards = (0..count).rev();
        downwards.max_by_key(distance).unwrap_or(0)
    }

    /// How far the stage or step of this number takes a bit, at most.
    pub fn reach(&self, number: usize) -> u32 {
        let distance = |path: &Vec<u32>| path[number].abs_diff(path[number + 1]);
        self.by_bit.iter().map(distance).max().unwrap_or(0)
    }
}
