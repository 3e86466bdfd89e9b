//! A small generator (SplitMix64). Each test begins it with a number of its own, so that a run can be repeated.

use std::ops::RangeInclusive;

pub struct Random(pub u64);

impl Random {
    pub fn bits(&mut self) -> u64 {
        self.0 = self.0.wrapping_add(0x9e37_79b9_7f4a_7c15);
        let mut z = self.0;
        z = (z ^ (z >> 30)).wrapping_mul(0xbf58_476d_1ce4_e5b9);
        z = (z ^ (z >> 27)).wrapping_mul(0x94d0_49bb_1331_11eb);
        z ^ (z >> 31)
    }

    pub fn within(&mut self, range: RangeInclusive<i64>) -> i64 {
        let span = (range.end() - range.start()) as u64 + 1;
        range.start() + (self.bits() % span) as i64
    }

    pub fn below(&mut self, n: usize) -> usize {
        (self.bits() % n as u64) as usize
    }

    /// True once in n times.
    pub fn once_in(&mut self, n: usize) -> bool {
        self.below(n) == 0
    }

    pub fn pick<T: Copy>(&mut self, from: &[T]) -> T {
        from[self.below(from.len())]
    }

    /// Any number of 64 bits, the extremes and the small ones among them.
    pub fn number(&mut self) -> i64 {
        match self.below(4) {
            0 => self.pick(&[i64::MIN, i64::MAX, 0, -1, 1]),
            1 => self.within(-100..=100),
            _ => self.bits() as i64 >> self.below(64),
        }
    }

    pub fn numbers(&mut self, count: usize) -> Vec<i64> {
        (0..count).map(|_| self.number()).collect()
    }

    /// A picture: of any levels, of extremes, of few levels, or of nearly one level.
    pub fn picture(&mut self, cells: usize) -> Vec<i16> {
        let kind = self.below(4);
        let ground = self.bits() as i16;
        let level = |random: &mut Random| match kind {
            0 => random.bits() as i16,
            1 => random.pick(&[i16::MIN, i16::MAX, 0, -1, 1]),
            2 => random.within(-2..=2) as i16,
            _ if random.once_in(8) => random.bits() as i16,
            _ => ground,
        };
        (0..cells).map(|_| level(self)).collect()
    }
}
