//! Counts of what an operation answered.

use crate::operations::Operation;
use std::collections::BTreeMap;
use std::fmt::Write;

#[derive(Default)]
pub struct Tally {
    answered: u64,
    refused: BTreeMap<u8, u64>,
    /// Of one or two states, of over 16, and of over 64.
    states: [u64; 3],
    complete: u64,
    /// By the missed path's length.
    missed: BTreeMap<u64, u64>,
}

impl Tally {
    pub fn count(&mut self, operation: &Operation, answer: u64) {
        let refusal = (answer & 0xff) as u8;
        if refusal != 0 {
            *self.refused.entry(refusal).or_insert(0) += 1;
            return;
        }
        self.answered += 1;
        if operation.has_states {
            let states = answer >> 40 & 0xfff;
            for (count, met) in self.states.iter_mut().zip([states <= 2, states > 16, states > 64]) {
                *count += u64::from(met);
            }
        }
        if operation.has_missed {
            match answer >> 48 {
                0 => self.complete += 1,
                more => *self.missed.entry(more - 1).or_insert(0) += 1,
            }
        }
    }

    pub fn told(&self, operation: &Operation) -> String {
        let mut told = format!("{}\n{:10} answered\n", operation.name, self.answered);
        if operation.has_states {
            let [few, some, many] = self.states;
            let _ = writeln!(told, "{few:14} one or two states\n{some:14} over 16 states\n{many:14} over 64 states");
        }
        if operation.has_missed {
            let _ = writeln!(told, "{:14} complete", self.complete);
        }
        for (length, count) in &self.missed {
            let _ = writeln!(told, "{count:14} missed, of length {length}");
        }
        for (number, count) in &self.refused {
            let _ = writeln!(told, "{count:10} refused {number}");
        }
        told
    }

    /// Stops the run if a refusal was never met, or nothing answered.
    pub fn assert_all_met(&self, operation: &Operation) {
        let name = operation.name;
        assert!(self.answered > 0, "{name} never answered");
        for number in operation.refusals {
            assert!(self.refused.contains_key(number), "{name} never refused by {number}");
        }
        assert!(!operation.has_states || !self.states.contains(&0), "{name} without tables of some size");
        let both = self.complete > 0 && !self.missed.is_empty();
        assert!(!operation.has_missed || both, "{name} always alike");
    }
}
