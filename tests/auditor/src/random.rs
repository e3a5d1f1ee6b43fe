//! A small seeded generator (splitmix64): the same seed gives the same values.

use std::env;
use std::time::{SystemTime, UNIX_EPOCH};

/// The seed of a run that is to be new: SEED if it is set, otherwise one from the clock.
pub fn fresh_seed() -> Result<u64, &'static str> {
    match env::var("SEED") {
        Ok(text) => text.parse().map_err(|_| "SEED is not a number below 2^64"),
        Err(_) => {
            let now = SystemTime::now().duration_since(UNIX_EPOCH).expect("the clock is past 1970");
            Ok(now.as_nanos() as u64)
        }
    }
}

pub struct Random(u64);

impl Random {
    pub fn new(seed: u64) -> Self {
        Random(seed)
    }

    /// The next 64 bits.
    pub fn word(&mut self) -> u64 {
        self.0 = self.0.wrapping_add(0x9e37_79b9_7f4a_7c15);
        let mut z = self.0;
        z = (z ^ (z >> 30)).wrapping_mul(0xbf58_476d_1ce4_e5b9);
        z = (z ^ (z >> 27)).wrapping_mul(0x94d0_49bb_1331_11eb);
        z ^ (z >> 31)
    }

    /// A number below `bound`.
    pub fn below(&mut self, bound: usize) -> usize {
        (self.word() % bound as u64) as usize
    }

    /// An array of random bytes.
    pub fn array<const LENGTH: usize>(&mut self) -> [u8; LENGTH] {
        std::array::from_fn(|_| self.word() as u8)
    }

    /// Random bytes, as many as asked for.
    pub fn bytes(&mut self, length: usize) -> Vec<u8> {
        (0..length).map(|_| self.word() as u8).collect()
    }
}
