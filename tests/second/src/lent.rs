//! Buffers to lend to two implementations in turn: both are filled with one
//! pattern, and afterwards they must be equal, guards before and behind
//! included.

use crate::generate::Random;

/// Cells before and behind the lent part. Nobody may change them.
const GUARD: usize = 8;
/// The pattern may begin at any of so many places.
const SHIFTS: usize = 64;

pub struct Lent<T> {
    pattern: Vec<T>,
    ours: Vec<T>,
    theirs: Vec<T>,
    length: usize,
}

impl<T: Copy + PartialEq + std::fmt::Debug> Lent<T> {
    /// For lent parts of at most `most` cells. `cell` tells the pattern by the
    /// place.
    pub fn new(most: usize, cell: impl Fn(usize) -> T) -> Lent<T> {
        let cells = most + 2 * GUARD;
        let pattern: Vec<T> = (0..cells + SHIFTS).map(cell).collect();
        Lent { ours: pattern[..cells].to_vec(), theirs: pattern[..cells].to_vec(), pattern, length: 0 }
    }

    /// Fills both with the same part of the pattern, for a lent part of
    /// `length` cells.
    pub fn lend(&mut self, length: usize, random: &mut Random) {
        let cells = length + 2 * GUARD;
        let shift = random.below(SHIFTS);
        let pattern = &self.pattern[shift..shift + cells];
        self.ours[..cells].copy_from_slice(pattern);
        self.theirs[..cells].copy_from_slice(pattern);
        self.length = length;
    }

    pub fn len(&self) -> usize {
        self.length
    }

    pub fn is_empty(&self) -> bool {
        self.length == 0
    }

    pub fn ours(&mut self) -> &mut [T] {
        &mut self.ours[GUARD..GUARD + self.length]
    }

    pub fn theirs(&mut self) -> &mut [T] {
        &mut self.theirs[GUARD..GUARD + self.length]
    }

    /// The first place where the two differ, as told; none if they are equal.
    /// Places of the guard before the lent part are negative.
    pub fn difference(&self) -> Option<String> {
        let cells = self.length + 2 * GUARD;
        let (ours, theirs) = (&self.ours[..cells], &self.theirs[..cells]);
        if ours == theirs {
            return None;
        }
        let place = (0..cells).find(|place| ours[*place] != theirs[*place])?;
        Some(format!(
            "at {} of {}: library {:?}, second {:?}",
            place as isize - GUARD as isize,
            self.length,
            theirs[place],
            ours[place]
        ))
    }
}

/// A pattern of bytes, none of them 0 or 1.
pub fn byte(place: usize) -> u8 {
    (place % 251) as u8 | 2
}

/// A pattern of 16-bit numbers, none of them 0.
pub fn number(place: usize) -> u16 {
    (place * 40_503 % 65_536) as u16 | 0x0100
}

/// A pattern of 64-bit words, none of them 0.
pub fn word(place: usize) -> u64 {
    (place as u64).wrapping_mul(0x9e37_79b9_7f4a_7c15) | 1 << 40
}
