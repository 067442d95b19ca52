//! Counts of what a run met, and the least that a run must meet.

use crate::comparison::{Asked, Told};
use second::answer::{MOST_LINKS, MOST_RECORDINGS};
use second::graphs::{Fault, Links, Shape};
use second::kinds::Kind;
use second::merge::merged;
use second::merge_tally::Merging;
use second::read::Job;
use second::states::States;
use std::fmt::{Display, Formatter, Result as Written};

pub const LEAST_JOBS: usize = 5_000;
const LEAST_COMPLETE: usize = 500;
/// Of recordings.
const SIZES: [&str; 4] = ["up to 64 recordings", "65 to 256 recordings", "257 to 4095 recordings", "4096 recordings"];

/// Of one of the two answers.
#[derive(Default)]
struct Answers {
    inputs: usize,
    refused: [usize; 18],
    no_marks: usize,
    some_marks: usize,
    all_marks: usize,
    /// Answered, by recordings: up to 64, up to 256, up to 4,095, 4,096.
    recordings: [usize; 4],
    most_links: usize,
}

#[derive(Default)]
pub struct Tally {
    pub inputs: usize,
    links: Answers,
    lists: Answers,
    jobs: usize,
    kinds: [usize; Kind::ALL.len()],
    shapes: [usize; Shape::ALL.len()],
    full_tables: usize,
    pub faults: [usize; Fault::ALL.len()],
    /// Jobs whose exact lists are more than a table may have.
    pub too_many_exact: usize,
    /// Jobs held against each other from links and from exact lists.
    held: usize,
    complete: usize,
    /// Complete, with some marks but not all.
    complete_some: usize,
    /// Not complete, with marks from links alone.
    less: usize,
    merging: Merging,
}

impl Tally {
    pub fn count(&mut self, asked: Asked, told: &Told) {
        self.inputs += 1;
        let answers = match asked.chosen {
            Some(_) => &mut self.links,
            None => &mut self.lists,
        };
        answers.inputs += 1;
        let recordings = asked.recordings as usize;
        match told {
            Err(refusal) => answers.refused[refusal.number as usize] += 1,
            Ok(ones) => {
                match *ones {
                    0 => answers.no_marks += 1,
                    ones if ones == recordings => answers.all_marks += 1,
                    _ => answers.some_marks += 1,
                }
                let sizes = [64, 256, MOST_RECORDINGS - 1];
                answers.recordings[sizes.iter().filter(|size| **size < recordings).count()] += 1;
                answers.most_links += usize::from(asked.table.len() == 3 * MOST_LINKS);
            }
        }
    }

    pub fn job(&mut self, kind: Kind, shape: Shape, links: &Links) {
        self.jobs += 1;
        for (place, one) in Kind::ALL.iter().enumerate() {
            self.kinds[place] += usize::from(*one == kind);
        }
        for (place, one) in Shape::ALL.iter().enumerate() {
            self.shapes[place] += usize::from(*one == shape);
        }
        self.full_tables += usize::from(links.len() == MOST_LINKS);
    }

    /// Counts a job that was answered from lists.
    pub fn states(&mut self, job: &Job) {
        let states = States::of(job).expect("an answered job").table;
        self.merging.count(states.states(), merged(&states).states());
    }

    pub fn held(&mut self, of_lists: &[u8], of_links: &[u8], complete: bool) {
        self.held += 1;
        let some = of_links.contains(&0) && of_links.contains(&1);
        self.complete += usize::from(complete);
        self.complete_some += usize::from(complete && some);
        self.less += usize::from(of_lists != of_links);
    }

    /// Stops the run if too few of some kind were met.
    pub fn assert_floors(&self) {
        let floor = |what: &str, count: usize, least: usize| {
            assert!(count >= least, "only {count} of: {what}");
        };
        floor("jobs", self.jobs, LEAST_JOBS);
        floor("complete, some marks", self.complete_some, LEAST_COMPLETE);
        floor("fewer marks from lists", self.less, 300);
        self.merging.assert_floors(50);
        for (shape, count) in Shape::ALL.iter().zip(self.shapes) {
            floor(shape.words(), count, 50);
        }
        for (fault, count) in Fault::ALL.iter().zip(self.faults) {
            floor(fault.words(), count, 50);
        }
        for answers in [&self.links, &self.lists] {
            floor("no marks", answers.no_marks, 300);
            floor("some marks", answers.some_marks, 300);
            floor("all marks", answers.all_marks, 300);
            for (size, count) in SIZES.iter().zip(answers.recordings) {
                floor(size, count, 50);
            }
            for number in (1..=9).chain(14..=16) {
                floor(&format!("refused {number}"), answers.refused[number], 20);
            }
        }
        floor("16384 links", self.links.most_links, 50);
        floor("refused 10", self.lists.refused[10], 20);
        floor("refused 17", self.links.refused[17], 20);
    }
}

impl Display for Answers {
    fn fmt(&self, out: &mut Formatter) -> Written {
        let counts = self.refused.iter().enumerate();
        for (number, count) in counts.filter(|(_, count)| **count > 0) {
            writeln!(out, "       {count:8} refused {number}")?;
        }
        writeln!(out, "       {:8} no marks", self.no_marks)?;
        writeln!(out, "       {:8} some marks", self.some_marks)?;
        writeln!(out, "       {:8} all marks", self.all_marks)?;
        for (size, count) in SIZES.iter().zip(self.recordings) {
            writeln!(out, "       {count:8} answered, {size}")?;
        }
        writeln!(out, "       {:8} answered, 16384 links", self.most_links)
    }
}

impl Display for Tally {
    fn fmt(&self, out: &mut Formatter) -> Written {
        writeln!(out, "links  {:8}\n{}", self.links.inputs, self.links)?;
        writeln!(out, "lists  {:8}\n{}", self.lists.inputs, self.lists)?;
        writeln!(out, "jobs   {:8}", self.jobs)?;
        let mut line = |count: usize, what: &str| writeln!(out, "       {count:8} {what}");
        for (kind, count) in Kind::ALL.iter().zip(self.kinds) {
            line(count, kind.words())?;
        }
        for (shape, count) in Shape::ALL.iter().zip(self.shapes) {
            line(count, shape.words())?;
        }
        for (fault, count) in Fault::ALL.iter().zip(self.faults) {
            line(count, &format!("bad tables: {}", fault.words()))?;
        }
        line(self.full_tables, "tables of 16384 links")?;
        line(self.too_many_exact, "exact lists over 16384 triples")?;
        line(self.held, "exact lists held against the links")?;
        line(self.complete, "of these complete")?;
        line(self.complete_some, "of these complete, some marks but not all")?;
        line(self.less, "of these fewer marks from lists")?;
        write!(out, "answered from lists\n{}", self.merging)
    }
}
