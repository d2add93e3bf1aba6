//! A small deterministic source of numbers (splitmix64).

use std::cell::Cell;

/// A cell, so that a choice among random values can be written in one expression.
pub struct Rng {
    state: Cell<u64>,
}

impl Rng {
    pub fn new(seed: u64) -> Rng {
        Rng { state: Cell::new(seed) }
    }

    pub fn next(&self) -> u64 {
        let mut z = self.state.get().wrapping_add(0x9E37_79B9_7F4A_7C15);
        self.state.set(z);
        z = (z ^ (z >> 30)).wrapping_mul(0xBF58_476D_1CE4_E5B9);
        z = (z ^ (z >> 27)).wrapping_mul(0x94D0_49BB_1331_11EB);
        z ^ (z >> 31)
    }

    pub fn below(&self, end: u64) -> u64 {
        ((u128::from(self.next()) * u128::from(end)) >> 64) as u64
    }

    pub fn index(&self, end: usize) -> usize {
        self.below(end as u64) as usize
    }

    /// Both ends belong to the range.
    pub fn range(&self, low: u64, high: u64) -> u64 {
        low + self.below(high - low + 1)
    }

    pub fn ticks(&self, low: u32, high: u32) -> u32 {
        self.range(low.into(), high.into()) as u32
    }

    pub fn size(&self, low: usize, high: usize) -> usize {
        self.range(low as u64, high as u64) as usize
    }

    pub fn one_in(&self, count: u64) -> bool {
        self.below(count) == 0
    }

    pub fn byte(&self) -> u8 {
        self.next() as u8
    }

    pub fn pick<T: Copy>(&self, choices: &[T]) -> T {
        choices[self.index(choices.len())]
    }

    pub fn shuffle<T>(&self, list: &mut [T]) {
        for end in (1..list.len()).rev() {
            list.swap(end, self.index(end + 1));
        }
    }

    /// The rows 0 to n − 1 in random sequence.
    pub fn permutation(&self, n: usize) -> Vec<usize> {
        let mut rows: Vec<usize> = (0..n).collect();
        self.shuffle(&mut rows);
        rows
    }

    /// A buffer with contents that no answer is likely to store.
    pub fn buffer(&self, length: usize) -> Vec<u8> {
        (0..length).map(|_| self.byte()).collect()
    }
}
