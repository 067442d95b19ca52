//! Tables of states, which decide which list words are accepted.

use crate::explore::Explored;

/// A complete deterministic table, which begins at state 0.
#[derive(Clone, Debug, PartialEq, Eq)]
pub struct Table {
    /// The next state: `next[state][list]`.
    pub next: Vec<Vec<usize>>,
    /// Whether a word that ends at a state is accepted.
    pub accepting: Vec<bool>,
}

impl Table {
    pub fn states(&self) -> usize {
        self.next.len()
    }

    /// How many lists there are.
    pub fn lists(&self) -> usize {
        self.next[0].len()
    }

    /// The state at which a list word ends.
    pub fn follow(&self, word: &[usize]) -> usize {
        word.iter().fold(0, |state, list| self.next[state][*list])
    }

    pub fn accepts(&self, word: &[usize]) -> bool {
        self.accepting[self.follow(word)]
    }

    /// Whether another table of as many lists accepts the same words.
    pub fn accepts_as(&self, other: &Table) -> bool {
        let step = |(one, two): &(usize, usize), list: usize| (self.next[*one][list], other.next[*two][list]);
        let both = Explored::new((0, 0), self.lists(), usize::MAX, step).expect("no limit");
        both.values.iter().all(|(one, two)| self.accepting[*one] == other.accepting[*two])
    }
}
