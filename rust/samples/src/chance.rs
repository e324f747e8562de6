//! Pseudo-random numbers from a seed (xorshift64*).

/// A source of numbers that looks random and is fixed by its seed.
#[derive(Clone)]
pub struct Chance {
    state: u64,
}

impl Chance {
    /// The source with this seed.
    pub fn new(seed: u64) -> Self {
        // xorshift stays at 0 for ever: spread the seed and keep away from it
        let state = seed.wrapping_mul(0x9e37_79b9_7f4a_7c15) ^ 0xd1b5_4a32_d192_ed03;
        let mut chance = Chance { state: state.max(1) };
        (0..8).for_each(|_| _ = chance.bits());
        chance
    }

    fn bits(&mut self) -> u64 {
        self.state ^= self.state >> 12;
        self.state ^= self.state << 25;
        self.state ^= self.state >> 27;
        self.state.wrapping_mul(0x2545_f491_4f6c_dd1d) >> 16
    }

    /// A number below `count`, which is not 0.
    pub fn below(&mut self, count: usize) -> usize {
        (self.bits() % count as u64) as usize
    }

    /// A number from `low` to `high`, both included.
    pub fn between(&mut self, low: i32, high: i32) -> i32 {
        let count = (i64::from(high) - i64::from(low) + 1) as u64;
        (i64::from(low) + (self.bits() % count) as i64) as i32
    }

    /// True once in `count` times.
    pub fn once_in(&mut self, count: usize) -> bool {
        self.below(count) == 0
    }

    /// One of these.
    pub fn among<T: Copy>(&mut self, these: &[T]) -> T {
        these[self.below(these.len())]
    }
}
