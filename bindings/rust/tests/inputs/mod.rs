//! Inputs for the tests from a seed, whole and damaged; the calls made on lent tables; and what was seen.
#![allow(dead_code)] // each test program uses its part
pub mod calls;
pub mod compared;
pub mod joins;
pub mod lent;
pub mod plans;
pub mod seen;
pub mod sites;
pub mod tables;
pub mod texts;

/// Random numbers (splitmix64).
pub struct Random(u64);

impl Random {
    /// The seed is 1, or CONDUCTOR_SEED.
    pub fn seeded() -> Random {
        Random(std::env::var("CONDUCTOR_SEED").ok().and_then(|s| s.parse().ok()).unwrap_or(1))
    }

    pub fn seed(&self) -> u64 {
        self.0
    }

    pub fn next(&mut self) -> u64 {
        self.0 = self.0.wrapping_add(0x9e37_79b9_7f4a_7c15);
        let z = (self.0 ^ self.0 >> 30).wrapping_mul(0xbf58_476d_1ce4_e5b9);
        let z = (z ^ z >> 27).wrapping_mul(0x94d0_49bb_1331_11eb);
        z ^ z >> 31
    }

    pub fn below(&mut self, n: usize) -> usize {
        (self.next() % n.max(1) as u64) as usize
    }

    pub fn between(&mut self, low: usize, high: usize) -> usize {
        low + self.below(high - low + 1)
    }

    pub fn one_in(&mut self, n: usize) -> bool {
        self.below(n) == 0
    }

    pub fn choice<T: Clone>(&mut self, of: &[T]) -> T {
        of[self.below(of.len())].clone()
    }
}
