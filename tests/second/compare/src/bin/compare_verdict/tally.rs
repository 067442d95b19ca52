//! Counts of what a run met, and the least that a run must meet.

use crate::comparison::Told;
use second::judge::{beginnings, is_path_of, offsets};
use second::kinds::Kind;
use second::merge_tally::Merging;
use second::operations::MOST_ALLOWANCE;
use second::read::Job;
use second::states::States;
use second::verdict::Verdict;
use std::fmt::{Display, Formatter, Result as Written};

pub const LEAST_JOBS: usize = 20_000;
const LEAST_OF_A_KIND: usize = 300;

/// The allowances of every random job, before one below its count of pairs and
/// that count.
pub const ALLOWANCES: [usize; 4] = [1, 2, 128, MOST_ALLOWANCE];

#[derive(Default)]
pub struct Tally {
    pub inputs: usize,
    refused: [usize; 18],
    jobs: usize,
    kinds: [usize; Kind::ALL.len()],
    /// Jobs by what they are told with allowance 4,096.
    of_jobs: [usize; 18],
    complete: usize,
    complete_of_states: usize,
    /// By length; the last for all over 3.
    missed: [usize; 5],
    longest_missed: usize,
    empty_path_in_list: usize,
    empty_path_in_query: usize,
    merging: Merging,
    /// From 17 to 64 states with at most four lists, and with more.
    some_states: [usize; 2],
    /// Over 64 states, and those of them with the empty path in a list.
    many_states: [usize; 2],
    /// Over 64 offsets with at most four lists, and with more.
    many_offsets: [usize; 2],
    /// Over 64 beginnings of lists, at most four of them, or more.
    many_beginnings: [usize; 2],
    /// Random jobs refused 13, by the allowance.
    pub over: [usize; ALLOWANCES.len() + 2],
    pub judged: usize,
    pub judged_words: usize,
    pub judged_whole: usize,
    pub judged_complete: usize,
    pub judged_missed: usize,
}

impl Tally {
    pub fn count(&mut self, told: &Told) {
        self.inputs += 1;
        if let Err(refusal) = told {
            self.refused[refusal.number as usize] += 1;
        }
    }

    pub fn job(&mut self, kind: Option<Kind>, job: &Job, exact: &Result<Verdict, u8>) {
        self.jobs += 1;
        if let Some(kind) = Kind::ALL.iter().position(|one| Some(*one) == kind) {
            self.kinds[kind] += 1;
        }
        match exact {
            Err(number) => self.of_jobs[*number as usize] += 1,
            Ok(exact) => self.answered(job, exact),
        }
    }

    fn answered(&mut self, job: &Job, exact: &Verdict) {
        match &exact.missed {
            None => {
                self.complete += 1;
                self.complete_of_states += usize::from(exact.found.table.states() > 2);
            }
            Some(path) => {
                self.missed[path.len().min(4)] += 1;
                self.longest_missed = self.longest_missed.max(path.len());
            }
        }
        let before = States::of(job).expect("an answered job").table.states();
        self.merging.count(before, exact.found.table.states());
        let in_list = job.lists.iter().any(|list| is_path_of(&list.expr, &[]));
        self.empty_path_in_list += usize::from(in_list);
        self.sizes(job, exact.found.table.states(), in_list);
        self.empty_path_in_query += usize::from(is_path_of(&job.query, &[]));
    }

    fn sizes(&mut self, job: &Job, states: usize, in_list: bool) {
        if (17..=64).contains(&states) {
            self.some_states[usize::from(job.lists.len() > 4)] += 1;
        }
        if states > 64 {
            self.many_states[0] += 1;
            self.many_states[1] += usize::from(in_list);
        }
        if offsets(job) > 64 {
            self.many_offsets[usize::from(job.lists.len() > 4)] += 1;
        }
        if beginnings(job) > 64 {
            self.many_beginnings[usize::from(job.lists.len() > 4)] += 1;
        }
    }

    /// Stops the run if too few of some kind were met.
    pub fn assert_floors(&self) {
        let floor = |what: &str, count: usize, least: usize| {
            assert!(count >= least, "only {count} of: {what}");
        };
        let kind = |what: &str, count: usize| floor(what, count, LEAST_OF_A_KIND);
        floor("jobs", self.jobs, LEAST_JOBS);
        kind("12", self.of_jobs[12]);
        for which in [0, 1, 2, 4] {
            kind("13 with allowance 1, 2, 128 or a pair less", self.over[which]);
        }
        floor("13 with allowance 4096", self.over[3], 5);
        kind("complete, over two states", self.complete_of_states);
        for count in &self.missed[1..] {
            kind("missed, length 1, 2, 3 or more", *count);
        }
        // The empty word spells the empty path alone: where it is a query path
        // it is yielded, and never missed.
        assert_eq!(self.missed[0], 0, "the empty path is missed");
        kind("empty path in the query", self.empty_path_in_query);
        kind("empty path in a list", self.empty_path_in_list);
        self.merging.assert_floors(150);
        for count in self.some_states {
            floor("17 to 64 states, at most four lists or more", count, 20);
        }
        for count in self.many_states {
            floor("over 64 states, with the empty path in a list or not", count, 200);
        }
        for count in self.many_offsets {
            floor("over 64 offsets, at most four lists or more", count, 20);
        }
        for count in self.many_beginnings {
            floor("over 64 beginnings of lists, at most four or more", count, 10);
        }
        for number in 1..=13 {
            floor(&format!("refused {number}"), self.refused[number], 20);
        }
        floor("judged", self.judged, 1000);
        kind("judged, counts of pairs", self.judged_whole);
        kind("judged, complete", self.judged_complete);
        kind("judged, missed", self.judged_missed);
    }
}

fn refusals(out: &mut Formatter, counts: &[usize]) -> Written {
    let counts = counts.iter().enumerate();
    for (number, count) in counts.filter(|(_, count)| **count > 0) {
        writeln!(out, "       {count:8} refused {number}")?;
    }
    Ok(())
}

impl Display for Tally {
    fn fmt(&self, out: &mut Formatter) -> Written {
        writeln!(out, "inputs {:8}", self.inputs)?;
        refusals(out, &self.refused)?;
        writeln!(out, "jobs   {:8}", self.jobs)?;
        for (kind, count) in Kind::ALL.iter().zip(self.kinds) {
            writeln!(out, "       {count:8} {}", kind.words())?;
        }
        let others = self.jobs - self.kinds.iter().sum::<usize>();
        writeln!(out, "       {others:8} over 1500 pairs")?;
        let names = ["1", "2", "128", "4096", "one pair less"];
        for (name, count) in names.iter().zip(self.over) {
            writeln!(out, "       {count:8} refused 13 with allowance {name}")?;
        }
        writeln!(out, "with allowance 4096")?;
        refusals(out, &self.of_jobs)?;
        let mut line = |count: usize, what: &str| writeln!(out, "       {count:8} {what}");
        line(self.complete, "complete")?;
        line(self.complete_of_states, "complete, over two states")?;
        for (length, count) in self.missed.iter().enumerate().take(4) {
            line(*count, &format!("missed, length {length}"))?;
        }
        let longest = self.longest_missed;
        line(self.missed[4], &format!("missed, length 4 to {longest}"))?;
        line(self.empty_path_in_list, "with the empty path in a list")?;
        line(self.empty_path_in_query, "with the empty path in the query")?;
        write!(out, "{}", self.merging)?;
        let mut line = |count: usize, what: &str| writeln!(out, "       {count:8} {what}");
        line(self.some_states[0], "17 to 64 states, at most four lists")?;
        line(self.some_states[1], "17 to 64 states, more lists")?;
        line(self.many_states[0], "over 64 states")?;
        line(self.many_states[1], "over 64 states, with the empty path in a list")?;
        line(self.many_offsets[0], "over 64 offsets, at most four lists")?;
        line(self.many_offsets[1], "over 64 offsets, more lists")?;
        line(self.many_beginnings[0], "over 64 beginnings of at most four lists")?;
        line(self.many_beginnings[1], "over 64 beginnings of more lists")?;
        line(self.judged, "judged")?;
        line(self.judged_words, "judged list words")?;
        line(self.judged_whole, "judged counts of pairs")?;
        line(self.judged_complete, "judged complete")?;
        line(self.judged_missed, "judged missed")
    }
}
