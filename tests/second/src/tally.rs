//! Counts of what a run of texts met, and the least that a run must meet.

use crate::generate::{Text, FAMILIES};
use crate::read::{Fault, Job, Reason};

pub const LEAST_INPUTS: usize = 100_000;
pub const LEAST_ACCEPTED: usize = 20_000;
pub const LEAST_OF_EACH_REASON: usize = 500;

#[derive(Default)]
pub struct Tally {
    pub inputs: usize,
    pub accepted: usize,
    pub reasons: [usize; Reason::ALL.len()],
    pub families: [usize; FAMILIES.len()],
}

impl Tally {
    pub fn count(&mut self, text: &Text, answer: &Result<Job, Fault>) {
        self.inputs += 1;
        let family = FAMILIES.iter().position(|name| *name == text.family);
        self.families[family.expect("every family is listed")] += 1;
        match answer {
            Ok(_) => self.accepted += 1,
            Err(fault) => {
                let reason = Reason::ALL.iter().position(|reason| *reason == fault.reason);
                self.reasons[reason.expect("every reason is listed")] += 1;
            }
        }
    }

    pub fn refused(&self, number: u8) -> usize {
        let counts = Reason::ALL.iter().zip(self.reasons);
        counts.filter(|(reason, _)| reason.number() == number).map(|(_, count)| count).sum()
    }

    /// Stops the run if too few texts of some kind were met.
    pub fn assert_floors(&self) {
        assert!(self.inputs >= LEAST_INPUTS, "only {} inputs", self.inputs);
        assert!(self.accepted >= LEAST_ACCEPTED, "only {} accepted", self.accepted);
        for number in 1..=7 {
            let count = self.refused(number);
            assert!(count >= LEAST_OF_EACH_REASON, "only {count} of refusal {number}");
        }
        for (reason, count) in Reason::ALL.iter().zip(self.reasons) {
            assert!(count >= LEAST_OF_EACH_REASON, "only {count} of: {}", reason.words());
        }
    }
}

impl std::fmt::Display for Tally {
    fn fmt(&self, out: &mut std::fmt::Formatter) -> std::fmt::Result {
        writeln!(out, "inputs    {:7}", self.inputs)?;
        for (family, count) in FAMILIES.iter().zip(self.families) {
            writeln!(out, "            {count:7} {family}")?;
        }
        writeln!(out, "accepted  {:7}", self.accepted)?;
        for number in 1..=7 {
            writeln!(out, "refused {number} {:7}", self.refused(number))?;
            for (reason, count) in Reason::ALL.iter().zip(self.reasons) {
                if reason.number() == number {
                    writeln!(out, "            {count:7} {}", reason.words())?;
                }
            }
        }
        Ok(())
    }
}
