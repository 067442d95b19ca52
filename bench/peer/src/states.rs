//! The states of the rewriting, by exploration over the lists, then merged.

use crate::bits::Bits;
use crate::images::images;
use crate::job::Job;
use crate::refusal::{refuse, Result};
use crate::standings::Standings;

pub const MOST: usize = 256;
const SLOTS: usize = 1024;

pub struct Rewriting {
    pub lists: usize,
    pub count: usize,
    /// The next state at lists × state + list.
    pub next: Vec<u8>,
    pub accepts: [bool; MOST],
    /// The state and the list that a state was first reached by, before merging.
    reached: Vec<(u8, u8)>,
    /// The first accepting state before merging.
    first: Option<usize>,
}

struct Met {
    sets: Vec<u64>,
    slots: [u16; SLOTS],
}

impl Met {
    /// The state's number, and whether it is new.
    #[inline(always)]
    fn number(&mut self, set: u64) -> Option<(usize, bool)> {
        let mut at = (set.wrapping_mul(0x9e37_79b9_7f4a_7c15) >> 54) as usize;
        loop {
            match self.slots[at] as usize {
                0 => break,
                number if self.sets[number - 1] == set => return Some((number - 1, false)),
                _ => at = (at + 1) % SLOTS,
            }
        }
        if self.sets.len() == MOST {
            return None;
        }
        self.sets.push(set);
        self.slots[at] = self.sets.len() as u16;
        Some((self.sets.len() - 1, true))
    }
}

/// All states, merged; 10 where there are more than 256 before.
pub fn rewriting(job: &Job, query: &Standings) -> Result<Rewriting> {
    let images: Vec<[u64; 64]> = job.lists().iter().map(|list| images(query, list)).collect();
    let mut met = Met { sets: Vec::with_capacity(32), slots: [0; SLOTS] };
    met.number(1);
    let (mut next, mut reached) = (Vec::with_capacity(64), vec![(0, 0)]);
    let mut state = 0;
    while state < met.sets.len() {
        let set = met.sets[state];
        for (list, image) in images.iter().enumerate() {
            let to = Bits(set).fold(0, |all, standing| all | image[standing]);
            let Some((number, new)) = met.number(to) else { return refuse(10) };
            next.push(number as u8);
            if new {
                reached.push((state as u8, list as u8));
            }
        }
        state += 1;
    }
    let mut accepts = [false; MOST];
    for (accepts, set) in accepts.iter_mut().zip(&met.sets) {
        *accepts = set & !query.accepting == 0;
    }
    let first = accepts.iter().position(|&accepts| accepts);
    let mut found = Rewriting { lists: images.len(), count: met.sets.len(), next, accepts, reached, first };
    found.merge();
    Ok(found)
}

impl Rewriting {
    /// The accepting states, as a set.
    pub fn accepting(&self) -> [u64; 4] {
        let mut set = [0; 4];
        for state in 0..self.count {
            set[state / 64] |= (self.accepts[state] as u64) << (state % 64);
        }
        set
    }

    /// Writes Find's table and flags.
    pub fn write(&self, table: &mut [u16], flags: &mut [u8]) {
        table[..4096].fill(0);
        flags[..256].fill(0);
        for state in 0..self.count {
            for (number, &next) in table[16 * state..].iter_mut().zip(self.row(state)) {
                *number = next as u16;
            }
            flags[state] = self.accepts[state] as u8;
        }
    }

    /// The first accepted word, put into the lent letters; its length.
    pub fn first(&self, letters: &mut [u8]) -> Option<usize> {
        let (mut state, mut length) = (self.first?, 0);
        while state != 0 {
            let (before, list) = self.reached[state];
            letters[length] = list;
            (state, length) = (before as usize, length + 1);
        }
        letters[..length].reverse();
        Some(length)
    }
}
