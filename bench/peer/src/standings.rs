//! The standings of an expression: its places' sets, numbered as they are met.

use crate::bits::Bits;
use crate::expression::Automaton;
use crate::refusal::{refuse, Result};

const MOST: usize = 64;
const SLOTS: usize = 256;

pub struct Standings {
    pub count: usize,
    pub labels: usize,
    /// The next standing at labels × standing + label.
    pub next: Vec<u8>,
    /// Those that accept.
    pub accepting: u64,
}

/// The sets met so far, found by hashing.
struct Met {
    sets: [u64; MOST],
    slots: [u8; SLOTS],
    count: usize,
}

impl Met {
    #[inline(always)]
    fn number(&mut self, set: u64) -> Option<usize> {
        let mut at = (set.wrapping_mul(0x9e37_79b9_7f4a_7c15) >> 56) as usize;
        loop {
            match self.slots[at] as usize {
                0 => break,
                number if self.sets[number - 1] == set => return Some(number - 1),
                _ => at = (at + 1) % SLOTS,
            }
        }
        if self.count == MOST {
            return None;
        }
        self.sets[self.count] = set;
        self.count += 1;
        self.slots[at] = self.count as u8;
        Some(self.count - 1)
    }
}

/// The places that some label leads to from the set.
#[inline(always)]
fn followed(automaton: &Automaton, set: u64) -> u64 {
    Bits(set).fold(0, |all, place| all | automaton.follow[place])
}

/// All standings over so many labels; 9 where there are more than 64.
pub fn standings(automaton: &Automaton, labels: usize) -> Result<Standings> {
    let mut met = Met { sets: [0; MOST], slots: [0; SLOTS], count: 0 };
    met.number(1);
    let mut next = Vec::with_capacity(labels * 16);
    let mut standing = 0;
    while standing < met.count {
        let all = followed(automaton, met.sets[standing]);
        for enter in &automaton.enter[..labels] {
            let Some(number) = met.number(all & enter) else { return refuse(9) };
            next.push(number as u8);
        }
        standing += 1;
    }
    let sets = met.sets[..met.count].iter().enumerate();
    let accepting = sets.fold(0, |all, (number, set)| all | ((set & automaton.accepting != 0) as u64) << number);
    Ok(Standings { count: met.count, labels, next, accepting })
}
