//! The tests' numbers, for those beside the sources too.
#![allow(dead_code)]

/// Numbers that are the same on every run (SplitMix64).
pub struct Rng(pub u64);

impl Rng {
    pub fn bits(&mut self) -> u64 {
        self.0 = self.0.wrapping_add(0x9e37_79b9_7f4a_7c15);
        let mut z = self.0;
        z = (z ^ (z >> 30)).wrapping_mul(0xbf58_476d_1ce4_e5b9);
        z = (z ^ (z >> 27)).wrapping_mul(0x94d0_49bb_1331_11eb);
        z ^ (z >> 31)
    }

    /// A number below `end`.
    pub fn below(&mut self, end: u64) -> u64 {
        self.bits() % end
    }

    /// A mass, some of them 0 or negative.
    pub fn mass(&mut self) -> f32 {
        (self.below(2001) as f32 - 500.0) * 1.25e6
    }
}
