//! A table or a buffer that a call is lent, full of rubbish, with a margin in front and behind.

use std::fmt::Debug;

/// An entry of a table or a buffer.
pub trait Entry: Copy + Default + PartialEq + Debug {
    fn of(word: u64) -> Self;
}

impl Entry for u8 {
    fn of(word: u64) -> u8 {
        (word >> 32) as u8
    }
}

impl Entry for u32 {
    fn of(word: u64) -> u32 {
        (word >> 16) as u32
    }
}

impl Entry for u64 {
    fn of(word: u64) -> u64 {
        word
    }
}

/// Entries that no call may touch, in front of what is lent and behind it.
const MARGIN: usize = 32;

/// A table or a buffer that is lent to calls, with its margins.
pub struct Lent<T> {
    entries: Vec<T>,
    seed: u64,
}

impl<T: Entry> Lent<T> {
    pub fn new() -> Lent<T> {
        Lent { entries: Vec::new(), seed: 0 }
    }

    /// The rubbish at a place.
    fn rubbish(&self, place: usize) -> T {
        T::of((self.seed ^ place as u64).wrapping_mul(0x9e37_79b9_7f4a_7c15))
    }

    /// So many entries of rubbish, and its margins.
    pub fn fill(&mut self, seed: u64, length: usize) -> &mut [T] {
        self.seed = seed;
        self.entries.resize(length + 2 * MARGIN, T::default());
        for place in 0..self.entries.len() {
            self.entries[place] = self.rubbish(place);
        }
        &mut self.entries[MARGIN..MARGIN + length]
    }

    /// Whether it holds these entries, and beyond them what it was filled with.
    pub fn holds(&self, result: &[T]) -> bool {
        let behind = MARGIN + result.len();
        let untouched = |place: usize| self.entries[place] == self.rubbish(place);
        self.entries[MARGIN..behind] == *result
            && (0..MARGIN).all(untouched)
            && (behind..self.entries.len()).all(untouched)
    }

    /// Whether it is zero along its whole length, and its margins are as they were.
    pub fn is_zero(&self) -> bool {
        let behind = self.entries.len() - MARGIN;
        let untouched = |place: usize| self.entries[place] == self.rubbish(place);
        self.entries[MARGIN..behind].iter().all(|&entry| entry == T::default())
            && (0..MARGIN).all(untouched)
            && (behind..self.entries.len()).all(untouched)
    }
}
