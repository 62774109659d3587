//! The pseudo-random sequence of the generators.

/// A pseudo-random sequence (xorshift).
pub struct Random(u64);

impl Random {
    pub fn new(seed: u64) -> Random {
        let spread = seed.wrapping_mul(0x9e37_79b9_7f4a_7c15) ^ 0x2545_f491_4f6c_dd1d;
        Random(if spread == 0 { 1 } else { spread })
    }

    pub fn long(&mut self) -> u64 {
        self.0 ^= self.0 << 13;
        self.0 ^= self.0 >> 7;
        self.0 ^= self.0 << 17;
        self.0
    }

    pub fn word(&mut self) -> u32 {
        (self.long() >> 32) as u32
    }

    pub fn below(&mut self, count: usize) -> usize {
        self.word() as usize % count
    }

    pub fn one_of(&mut self, words: &[u32]) -> u32 {
        words[self.below(words.len())]
    }

    /// From 0 to below 1.
    pub fn unit(&mut self) -> f64 {
        (self.long() >> 11) as f64 / (1u64 << 53) as f64
    }

    /// The bits moved by at most three steps.
    pub fn nudge(&mut self, bits: u32) -> u32 {
        bits.wrapping_add(self.below(7) as u32).wrapping_sub(3)
    }
}
