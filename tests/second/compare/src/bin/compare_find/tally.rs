//! Counts of what a run met, and the least that a run must meet.

use crate::lent::{compared, Left, Shape, ENOUGH, SHORT};
use second::automaton::Automaton;
use second::merge_tally::Merging;
use second::read::read;
use second::states::States;

pub const LEAST_JOBS: usize = 20_000;
const LEAST_OF_A_KIND: usize = 300;

/// What was met.
#[derive(Default)]
pub struct Tally {
    calls: usize,
    pub inputs: usize,
    pub jobs: usize,
    /// By refusal; 0 is an answer.
    refused: [usize; 11],
    /// The same with each shape of buffers that suffice, and with each that is
    /// too short (where 8 is told).
    enough: [[usize; 11]; ENOUGH.len()],
    short: [[usize; 11]; SHORT.len()],
    merging: Merging,
    empty_path: usize,
    no_word: usize,
}

impl Tally {
    /// Compares a text with buffers that suffice and with others that do not.
    pub fn compare(&mut self, text: &[u8]) -> Left {
        let place = self.inputs % ENOUGH.len();
        self.compare_at(text, place)
    }

    pub fn compare_at(&mut self, text: &[u8], place: usize) -> Left {
        let mut call = |shape: Shape| {
            self.calls += 1;
            compared(text, shape)
        };
        let left = call(ENOUGH[place]);
        assert_eq!(call(SHORT[place]).number, 8, "{}", text.escape_ascii());
        let number = usize::from(left.refusal());
        self.inputs += 1;
        self.refused[number] += 1;
        self.enough[place][number] += 1;
        self.short[place][number] += 1;
        left
    }

    /// Counts a job that was answered.
    pub fn count(&mut self, text: &[u8], left: &Left) {
        let job = read(text).expect("an answered job");
        let empty_path = job.lists.iter().any(|list| Automaton::new(&list.expr).nullable);
        let before = States::of(&job).expect("an answered job").table.states();
        self.merging.count(before, left.states());
        self.empty_path += usize::from(empty_path);
        self.no_word += usize::from(left.first().is_none());
    }

    pub fn assert_floors(&self) {
        assert!(self.jobs >= LEAST_JOBS, "only {} random jobs", self.jobs);
        for (kind, count) in [
            ("refusal 9", self.refused[9]),
            ("refusal 10", self.refused[10]),
            ("a list with the empty path", self.empty_path),
            ("empty", self.no_word),
        ] {
            assert!(count >= LEAST_OF_A_KIND, "only {count} jobs with {kind}");
        }
        self.merging.assert_floors(150);
        // 8 is told only where a buffer is too short.
        for number in (0..11).filter(|number| *number != 8) {
            let shapes = self.enough.iter().chain(&self.short);
            let least = shapes.map(|counts| counts[number]).min();
            assert!(least > Some(0), "a shape of buffers without refusal {number}");
        }
    }
}

impl std::fmt::Display for Tally {
    fn fmt(&self, out: &mut std::fmt::Formatter) -> std::fmt::Result {
        writeln!(out, "inputs {}, random jobs {}, calls {}", self.inputs, self.jobs, self.calls)?;
        for (number, count) in self.refused.iter().enumerate() {
            match number {
                0 => writeln!(out, "  answered {count}")?,
                8 => writeln!(out, "  refused 8 {}, once for each input", self.inputs)?,
                _ => writeln!(out, "  refused {number} {count}")?,
            }
        }
        writeln!(out, "  a list with the empty path {}, empty {}", self.empty_path, self.no_word)?;
        write!(out, "{}", self.merging)
    }
}
