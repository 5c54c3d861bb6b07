//! A small generator of numbers that look random (splitmix64).

use crate::family::{Number, Range};

#[derive(Clone, Debug)]
pub struct Random(u64);

impl Random {
    pub fn new(seed: u64) -> Random {
        Random(seed)
    }

    /// The next 64 bits.
    pub fn bits(&mut self) -> u64 {
        self.0 = self.0.wrapping_add(0x9e37_79b9_7f4a_7c15);
        let mut z = self.0;
        z = (z ^ (z >> 30)).wrapping_mul(0xbf58_476d_1ce4_e5b9);
        z = (z ^ (z >> 27)).wrapping_mul(0x94d0_49bb_1331_11eb);
        z ^ (z >> 31)
    }

    /// From 0 to `bound` − 1.
    pub fn below(&mut self, bound: usize) -> usize {
        (self.bits() % bound as u64) as usize
    }

    /// From `low` to `high`, both included.
    pub fn between(&mut self, low: usize, high: usize) -> usize {
        low + self.below(high - low + 1)
    }

    pub fn chance(&mut self, percent: usize) -> bool {
        self.below(100) < percent
    }

    pub fn pick<'a, T>(&mut self, from: &'a [T]) -> &'a T {
        &from[self.below(from.len())]
    }

    /// A number in the range: often an end, 0 or a small one.
    pub fn number(&mut self, range: &Range) -> Number {
        let (low, high) = (*range.start(), *range.end());
        let wish = match self.below(8) {
            0 => low,
            1 => high,
            2 => 0,
            3 => self.below(7) as Number - 3,
            4 => self.below(4001) as Number - 2000,
            _ => low + (u128::from(self.bits()) % (high - low + 1) as u128) as Number,
        };
        wish.clamp(low, high)
    }
}
