//! A small generator of pseudo-random numbers (SplitMix64), so that a seed gives the same cases everywhere.

pub struct Random(u64);

impl Random {
    /// The numbers of one case: cases do not depend on how many numbers those before them took.
    pub fn for_case(seed: u64, case: u64) -> Random {
        let mut mixed = Random(seed);
        let start = mixed.next() ^ case.wrapping_mul(0xD1B5_4A32_D192_ED03);
        Random(start)
    }

    pub fn next(&mut self) -> u64 {
        self.0 = self.0.wrapping_add(0x9E37_79B9_7F4A_7C15);
        let mut z = self.0;
        z = (z ^ (z >> 30)).wrapping_mul(0xBF58_476D_1CE4_E5B9);
        z = (z ^ (z >> 27)).wrapping_mul(0x94D0_49BB_1331_11EB);
        z ^ (z >> 31)
    }

    /// A number below `limit`, which is not 0.
    pub fn below(&mut self, limit: usize) -> usize {
        (self.next() >> 16) as usize % limit
    }

    /// A number from `low` to `high`, both among them.
    pub fn between(&mut self, low: usize, high: usize) -> usize {
        low + self.below(high - low + 1)
    }

    /// True in `percent` of a hundred cases.
    pub fn chance(&mut self, percent: usize) -> bool {
        self.below(100) < percent
    }

    pub fn pick<T: Copy>(&mut self, from: &[T]) -> T {
        from[self.below(from.len())]
    }

    /// A word: often small or near a bound, where instructions have their corners.
    pub fn word(&mut self) -> u32 {
        // 80000010 twice is 32 modulo 2^32: a bit field that seems to fit.
        const CORNERS: [u32; 12] =
            [0, 1, 31, 32, 33, 63, 0x7FFF_FFFF, 0x8000_0000, 0x8000_0001, 0x8000_0010, 0xFFFF_FFFE, 0xFFFF_FFFF];
        match self.below(10) {
            0..=2 => self.below(40) as u32,
            3 => (self.below(40) as u32).wrapping_neg(),
            4..=6 => self.pick(&CORNERS),
            7 => 1 << self.below(32),
            _ => self.next() as u32,
        }
    }

    /// A word that serves as condition, selector, counter or register offset.
    pub fn small_word(&mut self) -> u32 {
        match self.below(8) {
            0..=5 => self.below(5) as u32,
            6 => (self.below(4) as u32).wrapping_neg(),
            _ => self.word(),
        }
    }

    pub fn words(&mut self, length: usize) -> Vec<u32> {
        (0..length).map(|_| self.word()).collect()
    }
}
