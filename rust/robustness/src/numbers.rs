//! Numbers that look random, the same for the same seed.

/// splitmix64.
pub struct Numbers(pub u64);

impl Numbers {
    pub fn any(&mut self) -> u64 {
        self.0 = self.0.wrapping_add(0x9E37_79B9_7F4A_7C15);
        let mut word = self.0;
        word = (word ^ (word >> 30)).wrapping_mul(0xBF58_476D_1CE4_E5B9);
        word = (word ^ (word >> 27)).wrapping_mul(0x94D0_49BB_1331_11EB);
        word ^ (word >> 31)
    }

    /// From 0 to one less than the bound.
    pub fn below(&mut self, bound: usize) -> usize {
        (self.any() % bound as u64) as usize
    }

    /// Yes, once in so many times.
    pub fn once_in(&mut self, times: usize) -> bool {
        self.below(times) == 0
    }

    pub fn of<T: Copy>(&mut self, choices: &[T]) -> T {
        choices[self.below(choices.len())]
    }

    /// A number at an edge of something, small, or any.
    pub fn odd(&mut self) -> u64 {
        const EDGES: [u64; 17] = [
            0,
            1,
            2,
            6,
            7,
            8,
            0x7FFD,
            0x7FFE,
            0xFFFF,
            65_536,
            65_537,
            999_999,
            1_000_000,
            1 << 32,
            1 << 47,
            1 << 63,
            u64::MAX,
        ];
        match self.below(4) {
            0 => self.of(&EDGES),
            1 => self.any() % 600,
            2 => 1 << self.below(64),
            _ => self.any(),
        }
    }
}
