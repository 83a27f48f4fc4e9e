//! Buffers in the midst of guards, so that a write beside a buffer is seen too.

use crate::random::Random;
use std::fmt::LowerHex;

const GUARD: usize = 24;

/// What a buffer is made of: bytes or words.
pub trait Item: Copy + PartialEq + LowerHex {
    fn any(random: &mut Random) -> Self;
}

impl Item for u8 {
    fn any(random: &mut Random) -> u8 {
        random.word() as u8
    }
}

impl Item for u64 {
    fn any(random: &mut Random) -> u64 {
        random.word()
    }
}

pub fn noise<T: Item>(random: &mut Random, length: usize) -> Vec<T> {
    (0..length).map(|_| T::any(random)).collect()
}

/// A buffer with guards before and after it, at any alignment that its items can have.
pub struct Guarded<T> {
    all: Vec<T>,
    before: Vec<T>,
    start: usize,
    length: usize,
}

impl<T: Item> Guarded<T> {
    pub fn new(random: &mut Random, held: &[T]) -> Guarded<T> {
        let start = GUARD + random.below(8);
        let mut all = noise(random, start);
        all.extend(held);
        all.extend(noise::<T>(random, GUARD));
        Guarded { before: all.clone(), all, start, length: held.len() }
    }

    pub fn part(&mut self) -> &mut [T] {
        &mut self.all[self.start..self.start + self.length]
    }

    /// What is wrong, if the buffer has to hold `wanted` and the guards what they held: the first place that differs. Places before 0 and
    /// from the buffer's length on are guards.
    pub fn complaint(&self, name: &str, wanted: &[T]) -> Option<String> {
        let end = self.start + self.length;
        if wanted.len() != self.length {
            return Some(format!("{name}: {} items expected in a buffer of {}", wanted.len(), self.length));
        }
        let expected = self.before[..self.start].iter().chain(wanted).chain(&self.before[end..]);
        let (place, (found, expected)) = self.all.iter().zip(expected).enumerate().find(|(_, (found, expected))| found != expected)?;
        let place = place as isize - self.start as isize;
        Some(format!("{name}: at place {place} of {}: expected {expected:x}, found {found:x}", self.length))
    }
}
