//! Numbers at random that are repeatable from a seed.

use crate::word::{all_ones, Word};

/// The splitmix64 generator.
pub struct Random {
    state: u64,
}

impl Random {
    /// A generator; equal seeds give equal numbers.
    pub fn new(seed: u64) -> Random {
        Random { state: seed }
    }

    /// The next 64 bits.
    pub fn next(&mut self) -> u64 {
        self.state = self.state.wrapping_add(0x9e37_79b9_7f4a_7c15);
        let mut mixed = self.state;
        mixed = (mixed ^ (mixed >> 30)).wrapping_mul(0xbf58_476d_1ce4_e5b9);
        mixed = (mixed ^ (mixed >> 27)).wrapping_mul(0x94d0_49bb_1331_11eb);
        mixed ^ (mixed >> 31)
    }

    /// A number below the limit, which is above 0.
    pub fn below(&mut self, limit: u64) -> u64 {
        (self.next() >> 16) % limit
    }

    /// A number from the first to the last, both included.
    pub fn between(&mut self, first: u32, last: u32) -> u32 {
        first + self.below(u64::from(last - first) + 1) as u32
    }

    /// Whether a thing happens that happens once in so many times.
    pub fn once_in(&mut self, times: u64) -> bool {
        self.below(times) == 0
    }

    /// One of the given things.
    pub fn one_of<T: Copy>(&mut self, things: &[T]) -> T {
        things[self.below(things.len() as u64) as usize]
    }

    /// A word over so many cells, 0 to 64.
    pub fn word(&mut self, cells: u32) -> Word {
        self.next() & all_ones(cells)
    }

    /// A number of 32 bits.
    pub fn number(&mut self) -> u32 {
        (self.next() >> 32) as u32
    }

    /// A word over n cells with at most so many ones.
    pub fn light_word(&mut self, n: u32, ones: u32) -> Word {
        (0..ones).fold(0, |word, _| word | 1 << self.between(0, n - 1))
    }
}
