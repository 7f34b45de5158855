//! Sets as masks, of one word where that is enough and of two elsewhere, so
//! that small problems do not pay for large ones.

#![allow(dead_code)]

use std::ops::{BitAnd, BitAndAssign, BitOr, BitOrAssign, Not};

/// A set of numbers below 64 or 128.
pub trait Set:
    Copy
    + Default
    + PartialEq
    + BitAnd<Output = Self>
    + BitAndAssign
    + BitOr<Output = Self>
    + BitOrAssign
    + Not<Output = Self>
{
    /// The set that words hold, the lowest numbers first.
    fn of(words: &[u64]) -> Self;
    fn one(member: usize) -> Self;
    fn below(end: usize) -> Self;
    fn has(self, member: usize) -> bool;
    fn count(self) -> u32;
    fn members(self) -> impl Iterator<Item = usize>;
    /// The lowest member of a set that has one.
    fn lowest(self) -> usize;
    /// Takes it out.
    fn pop(&mut self) -> usize;

    fn empty() -> Self {
        Self::default()
    }

    fn is_empty(self) -> bool {
        self == Self::empty()
    }
}

impl Set for u64 {
    fn of(words: &[u64]) -> Self {
        words[0]
    }

    fn one(member: usize) -> Self {
        1 << member
    }

    fn below(end: usize) -> Self {
        !0 >> (64 - end)
    }

    fn has(self, member: usize) -> bool {
        self >> member & 1 == 1
    }

    fn count(self) -> u32 {
        self.count_ones()
    }

    fn lowest(self) -> usize {
        self.trailing_zeros() as usize
    }

    fn pop(&mut self) -> usize {
        let member = self.trailing_zeros();
        *self &= *self - 1;
        member as usize
    }

    fn members(mut self) -> impl Iterator<Item = usize> {
        std::iter::from_fn(move || {
            let member = (self != 0).then(|| self.trailing_zeros() as usize)?;
            self &= self - 1;
            Some(member)
        })
    }
}

/// Bits are found in their word: that takes fewer instructions than shifts
/// over both words.
impl Set for u128 {
    fn of(words: &[u64]) -> Self {
        words[0] as u128 | (words[1] as u128) << 64
    }

    fn one(member: usize) -> Self {
        match member < 64 {
            true => (1u64 << member) as u128,
            false => ((1u64 << (member - 64)) as u128) << 64,
        }
    }

    fn below(end: usize) -> Self {
        !0 >> (128 - end)
    }

    fn has(self, member: usize) -> bool {
        let word = match member < 64 {
            true => self as u64,
            false => (self >> 64) as u64,
        };
        word >> (member % 64) & 1 == 1
    }

    fn count(self) -> u32 {
        self.count_ones()
    }

    fn lowest(self) -> usize {
        self.trailing_zeros() as usize
    }

    fn pop(&mut self) -> usize {
        let (low, high) = (*self as u64, (*self >> 64) as u64);
        if low != 0 {
            *self = (low & (low - 1)) as u128 | (high as u128) << 64;
            low.trailing_zeros() as usize
        } else {
            *self = ((high & (high - 1)) as u128) << 64;
            64 + high.trailing_zeros() as usize
        }
    }

    fn members(self) -> impl Iterator<Item = usize> {
        let (mut word, mut high, mut base) = (self as u64, (self >> 64) as u64, 0);
        std::iter::from_fn(move || {
            if word == 0 {
                (word, high, base) = (high, 0, 64);
            }
            let member = (word != 0).then(|| base + word.trailing_zeros() as usize)?;
            word &= word - 1;
            Some(member)
        })
    }
}
