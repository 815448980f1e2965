//! Numbers that look random and are the same in every run.

use crate::maps::Numbers;

pub struct Dice(Numbers);

impl Dice {
    pub fn new(seed: u64) -> Self {
        Self(Numbers::new(seed))
    }

    pub fn number(&mut self) -> u64 {
        self.0.any()
    }

    /// A number from 0 to `limit` - 1.
    pub fn below(&mut self, limit: u64) -> u64 {
        self.0.below(limit)
    }

    /// True once in `odds` throws.
    pub fn once_in(&mut self, odds: u64) -> bool {
        self.below(odds) == 0
    }

    pub fn one_of<T: Copy>(&mut self, choices: &[T]) -> T {
        choices[self.below(choices.len() as u64) as usize]
    }

    pub fn octets(&mut self, count: usize) -> Vec<u8> {
        (0..count).map(|_| self.number() as u8).collect()
    }
}
