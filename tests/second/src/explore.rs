//! Exploration: all values that a step reaches from a start, the shortest
//! words first. Standings, states and pairs are found by it.

use std::collections::HashMap;
use std::hash::Hash;

/// The values in the order of the least word that reaches each: the shortest,
/// first in order of its symbols. The start, reached by the empty word, is 0.
pub struct Explored<T> {
    pub values: Vec<T>,
    /// The number of the next value: `next[value][symbol]`.
    pub next: Vec<Vec<usize>>,
    /// The value before each, and the symbol between; none for the start.
    before: Vec<Option<(usize, usize)>>,
}

impl<T: Clone + Eq + Hash> Explored<T> {
    /// None if there are more than `most` values.
    pub fn new(start: T, symbols: usize, most: usize, step: impl Fn(&T, usize) -> T) -> Option<Self> {
        let mut number = HashMap::from([(start.clone(), 0)]);
        let mut values = vec![start];
        let mut before = vec![None];
        let mut next: Vec<Vec<usize>> = Vec::new();
        while next.len() < values.len() {
            let here = next.len();
            let mut row = Vec::new();
            for symbol in 0..symbols {
                let after = step(&values[here], symbol);
                let known = number.get(&after).copied();
                row.push(known.unwrap_or(values.len()));
                if known.is_none() {
                    number.insert(after.clone(), values.len());
                    values.push(after);
                    before.push(Some((here, symbol)));
                }
            }
            next.push(row);
            if values.len() > most {
                return None;
            }
        }
        Some(Explored { values, next, before })
    }

    /// The least word that reaches a value.
    pub fn word(&self, value: usize) -> Vec<usize> {
        let mut word = Vec::new();
        let mut here = value;
        while let Some((before, symbol)) = self.before[here] {
            word.push(symbol);
            here = before;
        }
        word.reverse();
        word
    }
}
