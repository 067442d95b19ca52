//! States that no word tells apart become one. A class is a set of states that
//! may still be one, named by the first of them. All states with the same
//! continuations are always in one class, so that classes need only be divided
//! until those of a class lead, by each list, to the same classes.

use crate::states::Rewriting;

/// The name of each state's class; there are at most 256 states.
type Classes = [u8; 256];

const UNKNOWN: u16 = u16::MAX;
/// More sweeps than this cost more than they save.
const MOST_SWEEPS: usize = 4;

impl Rewriting {
    #[inline(always)]
    pub fn row(&self, state: usize) -> &[u8] {
        &self.next[self.lists * state..][..self.lists]
    }

    /// Merges all that can be, and rewrites the table in place. The states stand
    /// in the order of their least words, and so do the first ones of the
    /// classes: their order is that of the merged states.
    pub fn merge(&mut self) {
        if self.accepts[..self.count].iter().all(|&accepts| accepts == self.accepts[0]) {
            self.next.truncate(self.lists);
            self.next.fill(0);
            self.count = 1;
            return;
        }
        let mut classes = self.by_level().unwrap_or([0; 256]);
        while self.divide(&mut classes) {}
        self.rewrite(&classes);
    }

    /// Classes by the length of the shortest accepted continuation, where a few
    /// sweeps from the last state to the first find it.
    fn by_level(&self) -> Option<Classes> {
        let mut levels = [UNKNOWN; 256];
        for (level, _) in levels.iter_mut().zip(&self.accepts[..self.count]).filter(|(_, &accepts)| accepts) {
            *level = 0;
        }
        (0..MOST_SWEEPS).find(|_| !self.sweep(&mut levels))?;
        let (mut first, mut classes) = ([UNKNOWN; 257], [0; 256]);
        for state in 0..self.count {
            let of_level = &mut first[levels[state].min(256) as usize];
            if *of_level == UNKNOWN {
                *of_level = state as u16;
            }
            classes[state] = *of_level as u8;
        }
        Some(classes)
    }

    /// Whether a level fell.
    fn sweep(&self, levels: &mut [u16; 256]) -> bool {
        let mut fell = false;
        for state in (0..self.count).rev() {
            let least = self.row(state).iter().fold(UNKNOWN - 1, |least, &next| least.min(levels[next as usize]));
            if least + 1 < levels[state] {
                levels[state] = least + 1;
                fell = true;
            }
        }
        fell
    }

    /// A state that agrees with the first of its class in flag and next classes
    /// stays; all others of that class go to one new class. Whether some went.
    fn divide(&self, classes: &mut Classes) -> bool {
        let before = *classes;
        let (mut divided, mut gone) = ([0; 256], false);
        for state in 1..self.count {
            let first = before[state] as usize;
            if first == state || self.agree(&before, state, first) {
                continue;
            }
            // No class is divided off by state 0, which is the first of its own.
            if divided[first] == 0 {
                divided[first] = state as u8;
            }
            classes[state] = divided[first];
            gone = true;
        }
        gone
    }

    #[inline(always)]
    fn agree(&self, classes: &Classes, one: usize, other: usize) -> bool {
        let mut pairs = self.row(one).iter().zip(self.row(other));
        self.accepts[one] == self.accepts[other] && pairs.all(|(&a, &b)| classes[a as usize] == classes[b as usize])
    }

    /// The rows of the first states alone, each where its class has its place:
    /// no later than where it stood.
    fn rewrite(&mut self, classes: &Classes) {
        let (mut numbers, mut count) = ([0u8; 256], 0);
        for state in 0..self.count {
            if classes[state] as usize == state {
                numbers[state] = count as u8;
                count += 1;
            }
        }
        for state in 0..self.count {
            if classes[state] as usize == state {
                let number = numbers[state] as usize;
                for list in 0..self.lists {
                    let next = self.next[self.lists * state + list];
                    self.next[self.lists * number + list] = numbers[classes[next as usize] as usize];
                }
                self.accepts[number] = self.accepts[state];
            }
        }
        self.next.truncate(self.lists * count);
        self.count = count;
    }
}
