//! Which pairs were met, by hashing: the keys stand in one vector of words, all
//! of one length.

pub struct Seen {
    /// One more than a key's number, under the upper half of its hash.
    slots: Vec<u64>,
    pub keys: Vec<u64>,
    pub length: usize,
    pub count: usize,
}

const NUMBER: u64 = 0xffff_ffff;

#[inline(always)]
fn hash(words: &[u64]) -> u64 {
    let mut hash: u64 = 0x2545_f491_4f6c_dd1d;
    for &word in words {
        hash = (hash.rotate_left(5) ^ word).wrapping_mul(0x9e37_79b9_7f4a_7c15);
    }
    hash ^ hash >> 29
}

impl Seen {
    pub fn new(length: usize) -> Seen {
        Seen { slots: vec![0; 256], keys: Vec::with_capacity(64 * length), length, count: 0 }
    }

    #[inline(always)]
    pub fn key(&self, number: usize) -> &[u64] {
        &self.keys[self.length * number..][..self.length]
    }

    /// Adds the key where it is new and there are fewer than `most`; whether it
    /// was new, or None where there was no room.
    #[inline(always)]
    pub fn add(&mut self, key: &[u64], most: usize) -> Option<bool> {
        let hash = hash(key);
        let mask = self.slots.len() - 1;
        let mut at = (hash >> 40) as usize & mask;
        loop {
            let slot = self.slots[at];
            if slot == 0 {
                break;
            }
            if (slot ^ hash) & !NUMBER == 0 && self.key((slot & NUMBER) as usize - 1) == key {
                return Some(false);
            }
            at = (at + 1) & mask;
        }
        if self.count == most {
            return None;
        }
        self.keys.extend_from_slice(key);
        self.count += 1;
        self.slots[at] = hash & !NUMBER | self.count as u64;
        if 2 * self.count > self.slots.len() {
            self.grow();
        }
        Some(true)
    }

    #[cold]
    fn grow(&mut self) {
        let mask = 4 * self.slots.len() - 1;
        let mut slots = vec![0; mask + 1];
        for number in 0..self.count {
            let hash = hash(self.key(number));
            let mut at = (hash >> 40) as usize & mask;
            while slots[at] != 0 {
                at = (at + 1) & mask;
            }
            slots[at] = hash & !NUMBER | (number as u64 + 1);
        }
        self.slots = slots;
    }
}
