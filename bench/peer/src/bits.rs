//! The places of a set that is one word or several.

/// The places of one word, from the least.
pub struct Bits(pub u64);

impl Iterator for Bits {
    type Item = usize;

    #[inline(always)]
    fn next(&mut self) -> Option<usize> {
        if self.0 == 0 {
            return None;
        }
        let place = self.0.trailing_zeros() as usize;
        self.0 &= self.0 - 1;
        Some(place)
    }
}

/// Calls `each` with every place of a set of several words.
#[inline(always)]
pub fn for_each(words: &[u64], mut each: impl FnMut(usize)) {
    for (number, &word) in words.iter().enumerate() {
        for place in Bits(word) {
            each(64 * number + place);
        }
    }
}

/// Adds all places of the other set.
#[inline(always)]
pub fn unite(set: &mut [u64], other: &[u64]) {
    for (word, &more) in set.iter_mut().zip(other) {
        *word |= more;
    }
}

/// Whether the sets have a place in common.
#[inline(always)]
pub fn meet(one: &[u64], two: &[u64]) -> bool {
    one.iter().zip(two).any(|(a, b)| a & b != 0)
}
