//! Random numbers that a seed repeats (SplitMix64).

pub struct Rng(u64);

impl Rng {
    /// The numbers of one unit of a run: units can be made in any order, on any thread.
    pub fn of_unit(seed: u64, unit: u64) -> Self {
        let mut rng = Rng(seed);
        let start = rng.word() ^ unit.wrapping_mul(0xd1b5_4a32_d192_ed03);
        Rng(start)
    }

    pub fn word(&mut self) -> u64 {
        self.0 = self.0.wrapping_add(0x9e37_79b9_7f4a_7c15);
        let mut x = self.0;
        x = (x ^ (x >> 30)).wrapping_mul(0xbf58_476d_1ce4_e5b9);
        x = (x ^ (x >> 27)).wrapping_mul(0x94d0_49bb_1331_11eb);
        x ^ (x >> 31)
    }

    /// A number below `limit`.
    pub fn below(&mut self, limit: usize) -> usize {
        ((self.word() as u128 * limit as u128) >> 64) as usize
    }

    /// A number from `low` to `high`, both included.
    pub fn within(&mut self, low: usize, high: usize) -> usize {
        low + self.below(high - low + 1)
    }

    /// Yes in `percent` of a hundred cases.
    pub fn percent(&mut self, percent: usize) -> bool {
        self.below(100) < percent
    }

    pub fn pick<'a, T>(&mut self, of: &'a [T]) -> &'a T {
        &of[self.below(of.len())]
    }

    pub fn byte(&mut self) -> u8 {
        self.word() as u8
    }

    pub fn letter(&mut self) -> u8 {
        *self.pick(b"ACGT")
    }
}
