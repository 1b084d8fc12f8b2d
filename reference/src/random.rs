//! Pseudo-random numbers from a seed (SplitMix64), so that a run can be had again. Not for keys.

use std::ops::RangeInclusive;

/// A sequence of numbers that its seed fixes.
#[derive(Clone, Debug)]
pub struct Random {
    state: u64,
}

impl Random {
    /// The sequence of a seed.
    pub fn new(seed: u64) -> Random {
        Random { state: seed }
    }

    /// The next 64 bits.
    pub fn bits(&mut self) -> u64 {
        self.state = self.state.wrapping_add(0x9e37_79b9_7f4a_7c15);
        let mut z = self.state;
        z = (z ^ (z >> 30)).wrapping_mul(0xbf58_476d_1ce4_e5b9);
        z = (z ^ (z >> 27)).wrapping_mul(0x94d0_49bb_1331_11eb);
        z ^ (z >> 31)
    }

    /// A number of the range. Ranges here are far below 2^64, so the modulo's bias is nothing.
    pub fn within(&mut self, range: RangeInclusive<u64>) -> u64 {
        let span = range.end().saturating_sub(*range.start()).saturating_add(1);
        range.start() + self.bits() % span
    }

    /// A length of the range.
    pub fn length(&mut self, range: RangeInclusive<usize>) -> usize {
        self.within(*range.start() as u64..=*range.end() as u64) as usize
    }

    /// A length of one of the ranges, each taken as often as its weight says.
    pub fn length_among<const N: usize>(
        &mut self,
        choices: [(u64, RangeInclusive<usize>); N],
    ) -> usize {
        let ends = choices.map(|(weight, range)| (weight, (*range.start(), *range.end())));
        let (least, most) = self.weighted(ends);
        self.length(least..=most)
    }

    /// True in about this many of a hundred cases.
    pub fn percent(&mut self, chance: u64) -> bool {
        self.within(0..=99) < chance
    }

    /// One byte.
    pub fn byte(&mut self) -> u8 {
        self.bits() as u8
    }

    /// Some bytes.
    pub fn bytes(&mut self, length: usize) -> Vec<u8> {
        (0..length).map(|_| self.byte()).collect()
    }

    /// One of these.
    pub fn pick<T: Copy, const N: usize>(&mut self, choices: [T; N]) -> T {
        choices[self.length(0..=N - 1)]
    }

    /// One of these, each as often as its weight says.
    pub fn weighted<T: Copy, const N: usize>(&mut self, choices: [(u64, T); N]) -> T {
        let total: u64 = choices.iter().map(|(weight, _)| weight).sum();
        let mut place = self.within(0..=total.saturating_sub(1));
        for (weight, choice) in choices {
            if place < weight {
                return choice;
            }
            place -= weight;
        }
        choices[N - 1].1
    }
}
