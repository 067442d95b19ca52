//! A rewriting, as the judge follows it.

use crate::operations::TABLE_ROW;
use std::collections::BTreeSet;

/// A rewriting to be judged: the next state by state and list, and which
/// states accept. It begins at state 0.
pub struct Rewriting {
    pub next: Vec<Vec<usize>>,
    pub accepting: Vec<bool>,
}

impl Rewriting {
    /// As Find's table and flags hold it: rows up to the greatest state named.
    pub fn lent(table: &[u16], flags: &[u8], lists: usize) -> Rewriting {
        let mut next: Vec<Vec<usize>> = Vec::new();
        let mut states = 1;
        while next.len() < states {
            let row = TABLE_ROW * next.len();
            let row = table[row..row + lists].iter().map(|state| *state as usize);
            next.push(row.collect());
            states = next.iter().flatten().fold(states, |n, state| n.max(state + 1));
        }
        let accepting = flags[..states].iter().map(|flag| *flag == 1).collect();
        Rewriting { next, accepting }
    }

    pub fn state(&self, word: &[usize]) -> usize {
        word.iter().fold(0, |state, list| self.next[state][*list])
    }

    pub fn accepts(&self, word: &[usize]) -> bool {
        self.accepting[self.state(word)]
    }

    /// Two states that could be one, if there are such.
    pub fn alike(&self) -> Option<(usize, usize)> {
        let states = self.next.len();
        let mut pairs = (0..states).flat_map(|other| (0..other).map(move |one| (one, other)));
        pairs.find(|pair| !self.told_apart(*pair))
    }

    /// Whether a word leads from one of two states to an accepting one, and
    /// from the other to one that is not.
    fn told_apart(&self, pair: (usize, usize)) -> bool {
        let mut met = BTreeSet::from([pair]);
        let mut waiting = vec![pair];
        while let Some((one, other)) = waiting.pop() {
            if self.accepting[one] != self.accepting[other] {
                return true;
            }
            let after = self.next[one].iter().copied().zip(self.next[other].iter().copied());
            waiting.extend(after.filter(|pair| met.insert(*pair)));
        }
        false
    }
}
