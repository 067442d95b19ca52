//! Names as keys of sixteen bytes, found by hashing.

use crate::refusal::{refuse, Result};

const SLOTS: usize = 64;

/// Up to 32 names and their numbers.
pub struct Names {
    keys: [u128; 32],
    slots: [u8; SLOTS],
    pub count: usize,
}

/// The kinds of bytes that names are made of.
#[derive(Clone, Copy, PartialEq, Eq)]
pub enum Kind {
    Letter,
    Later,
    Other,
}

const fn kind_of(byte: u8) -> Kind {
    match byte {
        b'a'..=b'z' => Kind::Letter,
        b'0'..=b'9' | b'-' => Kind::Later,
        _ => Kind::Other,
    }
}

const KINDS: [Kind; 256] = {
    let mut kinds = [Kind::Other; 256];
    let mut byte = 0;
    while byte < 256 {
        kinds[byte] = kind_of(byte as u8);
        byte += 1;
    }
    kinds
};

#[inline(always)]
pub fn kind(byte: u8) -> Kind {
    KINDS[byte as usize]
}

/// The key of a name, or None where the bytes are no name.
#[inline(always)]
pub fn key(bytes: &[u8]) -> Option<u128> {
    if bytes.is_empty() || bytes.len() > 16 || kind(bytes[0]) != Kind::Letter {
        return None;
    }
    let mut key = 0;
    for &byte in bytes {
        if kind(byte) == Kind::Other {
            return None;
        }
        key = key << 8 | byte as u128;
    }
    Some(key)
}

#[inline(always)]
fn slot(key: u128) -> usize {
    let folded = (key as u64) ^ ((key >> 64) as u64).rotate_left(23);
    (folded.wrapping_mul(0x9e37_79b9_7f4a_7c15) >> 58) as usize
}

impl Names {
    pub fn new() -> Names {
        Names { keys: [0; 32], slots: [0; SLOTS], count: 0 }
    }

    /// The number of the name, if it was added.
    #[inline(always)]
    pub fn find(&self, key: u128) -> Option<usize> {
        let mut at = slot(key);
        loop {
            match self.slots[at] {
                0 => return None,
                number if self.keys[number as usize - 1] == key => return Some(number as usize - 1),
                _ => at = (at + 1) % SLOTS,
            }
        }
    }

    /// Adds a name that is new; 4 where there are `most` already, 3 where it is
    /// none or repeated.
    pub fn add(&mut self, bytes: &[u8], most: usize) -> Result<()> {
        if self.count == most {
            return refuse(4);
        }
        let Some(key) = key(bytes) else { return refuse(3) };
        if self.find(key).is_some() {
            return refuse(3);
        }
        let mut at = slot(key);
        while self.slots[at] != 0 {
            at = (at + 1) % SLOTS;
        }
        self.keys[self.count] = key;
        self.count += 1;
        self.slots[at] = self.count as u8;
        Ok(())
    }
}
