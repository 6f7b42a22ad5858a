//! Random numbers from a seed, with a taste for edges.

pub struct Random(u64);

impl Random {
    pub fn new(seed: u64) -> Random {
        Random(seed)
    }

    /// SplitMix64: every seed gives a sound sequence.
    pub fn number(&mut self) -> u64 {
        self.0 = self.0.wrapping_add(0x9E37_79B9_7F4A_7C15);
        let mut z = self.0;
        z = (z ^ (z >> 30)).wrapping_mul(0xBF58_476D_1CE4_E5B9);
        z = (z ^ (z >> 27)).wrapping_mul(0x94D0_49BB_1331_11EB);
        z ^ (z >> 31)
    }

    /// A number below `bound`, which is not 0.
    pub fn below(&mut self, bound: u64) -> u64 {
        ((self.number() as u128 * bound as u128) >> 64) as u64
    }

    /// True once in `times`.
    pub fn once_in(&mut self, times: u64) -> bool {
        self.below(times) == 0
    }

    pub fn coin(&mut self) -> bool {
        self.number() >> 63 != 0
    }

    pub fn pick<T: Copy>(&mut self, from: &[T]) -> T {
        from[self.below(from.len() as u64) as usize]
    }

    /// Any number, edges more often than by chance.
    pub fn edgy(&mut self) -> u64 {
        match self.below(16) {
            0 => 0,
            1 => 1,
            2 => u64::MAX,
            3 => self.below(16),
            4 => self.below(5000),
            5 => 0u64.wrapping_sub(self.below(16)),
            6 => 1 << self.below(64),
            7 => (1u64 << self.below(64)).wrapping_sub(1),
            8 => self.number() as u32 as u64,
            9 => self.number() as i32 as i64 as u64,
            _ => self.number(),
        }
    }

    /// `near`, or a number close to it, or any.
    pub fn around(&mut self, near: u64) -> u64 {
        match self.below(8) {
            0 => near.wrapping_add(1),
            1 => near.wrapping_sub(1),
            2 => 0,
            3 => self.edgy(),
            _ => near,
        }
    }
}
