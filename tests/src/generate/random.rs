//! Random numbers that depend on their seed alone.

use super::plan::Range;
use super::program::largest_number;
use crate::tree::Type;

pub struct Random {
    state: u64,
}

impl Random {
    pub fn new(seed: u64) -> Random {
        Random { state: seed }
    }

    /// The next word (the mixing is SplitMix64's).
    pub fn word(&mut self) -> u64 {
        self.state = self.state.wrapping_add(0x9e37_79b9_7f4a_7c15);
        let first = (self.state ^ (self.state >> 30)).wrapping_mul(0xbf58_476d_1ce4_e5b9);
        let second = (first ^ (first >> 27)).wrapping_mul(0x94d0_49bb_1331_11eb);
        second ^ (second >> 31)
    }

    /// A number from `least` to `most`.
    pub fn between(&mut self, least: u64, most: u64) -> u64 {
        match (most - least).checked_add(1) {
            Some(count) => least + self.word() % count,
            None => self.word(),
        }
    }

    /// True in so many of a hundred cases.
    pub fn chance(&mut self, percent: u64) -> bool {
        self.between(1, 100) <= percent
    }

    pub fn index(&mut self, length: usize) -> usize {
        self.between(0, length as u64 - 1) as usize
    }

    pub fn choose<T: Copy>(&mut self, members: &[T]) -> T {
        members[self.index(members.len())]
    }

    pub fn within(&mut self, range: Range) -> u64 {
        self.between(range.0, range.1)
    }

    /// An index, drawn by its share.
    pub fn by_share(&mut self, shares: &[u64]) -> usize {
        let mut rest = self.between(0, shares.iter().sum::<u64>() - 1);
        for (index, &share) in shares.iter().enumerate() {
            if rest < share {
                return index;
            }
            rest -= share;
        }
        unreachable!("the number drawn is below the sum of the shares")
    }

    /// A value of the type, often at an edge.
    pub fn value(&mut self, kind: Type) -> u64 {
        let most = largest_number(kind);
        match self.between(0, 7) {
            0 => 0,
            1 => 1,
            2 => most,
            3 => most - 1,
            4 => most / 2 + 1,
            5 => self.between(0, most.min(9)),
            _ => self.between(0, most),
        }
    }
}
