//! Random numbers from a seed (SplitMix64): the same seed, the same case.

pub struct Random {
    state: u64,
}

/// The seed of a base's case.
pub fn mix(base: u64, case: u64) -> u64 {
    Random { state: base.wrapping_mul(0x2545_f491_4f6c_dd1d).wrapping_add(case) }.word()
}

impl Random {
    pub fn new(seed: u64) -> Random {
        Random { state: seed }
    }

    /// Any word, each as likely.
    pub fn word(&mut self) -> u64 {
        self.state = self.state.wrapping_add(0x9e37_79b9_7f4a_7c15);
        let mut z = self.state;
        z = (z ^ z >> 30).wrapping_mul(0xbf58_476d_1ce4_e5b9);
        z = (z ^ z >> 27).wrapping_mul(0x94d0_49bb_1331_11eb);
        z ^ z >> 31
    }

    pub fn below(&mut self, bound: u64) -> u64 {
        ((u128::from(self.word()) * u128::from(bound)) >> 64) as u64
    }

    /// A number from `least` to `most`.
    pub fn between(&mut self, least: u64, most: u64) -> u64 {
        least + self.below(most - least + 1)
    }

    pub fn one_in(&mut self, bound: u64) -> bool {
        self.below(bound) == 0
    }

    pub fn pick<T: Copy>(&mut self, choices: &[T]) -> T {
        choices[self.below(choices.len() as u64) as usize]
    }

    /// The frame with another upper half: a head and a year, one bit, or any.
    pub fn with_upper_half(&mut self, frame: u64) -> u64 {
        let upper = match self.below(3) {
            0 => self.below(4) << 24 | self.between(2020, 2030),
            1 => 1 << self.below(32),
            _ => self.word() >> 32,
        };
        frame & u64::from(u32::MAX) | upper << 32
    }

    /// A word of the kind that finds mistakes: small, near a power of two, near a bound, or any.
    pub fn odd_word(&mut self, bounds: &[u64]) -> u64 {
        let near = match self.below(5) {
            0 => return self.below(4),
            1 => return self.word(),
            2 => return u64::MAX - self.below(3),
            3 => 1 << self.below(64),
            _ => self.pick(bounds),
        };
        near.wrapping_add(self.below(3)).wrapping_sub(1)
    }
}
