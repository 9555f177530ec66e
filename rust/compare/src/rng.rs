//! Seeded numbers, the same on every machine: splitmix64.

use std::process;
use std::time::{SystemTime, UNIX_EPOCH};

/// The seed where none is given: every run of it does the same.
pub const FIXED_SEED: u64 = 1;

/// A seed of the system's, from the time and the process: short enough to be typed again.
pub fn fresh_seed() -> u64 {
    let time = SystemTime::now().duration_since(UNIX_EPOCH).map_or(0, |since| since.as_nanos() as u64);
    Rng::new(time ^ u64::from(process::id()).rotate_right(16)).word() >> 32
}

pub struct Rng {
    state: u64,
}

impl Rng {
    pub fn new(seed: u64) -> Rng {
        Rng { state: seed }
    }

    /// Each case has numbers of its own, so that it can be run again alone.
    pub fn of_case(seed: u64, case: u64) -> Rng {
        let mut rng = Rng::new(seed);
        let mixed = rng.word() ^ case.wrapping_mul(0xD134_2543_DE82_EF95);
        Rng::new(mixed)
    }

    pub fn word(&mut self) -> u64 {
        self.state = self.state.wrapping_add(0x9E37_79B9_7F4A_7C15);
        let mut z = self.state;
        z = (z ^ (z >> 30)).wrapping_mul(0xBF58_476D_1CE4_E5B9);
        z = (z ^ (z >> 27)).wrapping_mul(0x94D0_49BB_1331_11EB);
        z ^ (z >> 31)
    }

    /// 0 to `end` − 1.
    pub fn below(&mut self, end: usize) -> usize {
        (self.word() % end as u64) as usize
    }

    /// `low` to `high`, both included.
    pub fn within(&mut self, low: usize, high: usize) -> usize {
        low + self.below(high - low + 1)
    }

    /// True once in `n` times.
    pub fn one_in(&mut self, n: usize) -> bool {
        self.below(n) == 0
    }

    pub fn byte(&mut self) -> u8 {
        self.word() as u8
    }

    pub fn bytes(&mut self, count: usize) -> Vec<u8> {
        (0..count).map(|_| self.byte()).collect()
    }

    pub fn pick<T: Copy>(&mut self, choices: &[T]) -> T {
        choices[self.below(choices.len())]
    }
}
