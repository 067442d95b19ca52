//! A row of places for each state: bit 0 for the state alone, then the
//! occurrences of all lists. There are at most 64 states: with more of them,
//! columns have fewer words.

use super::closure::closures;
use super::Cover;
use crate::bits::{for_each, unite, Bits};
use crate::job::Job;
use crate::states::Rewriting;

/// B words have all places of a row.
pub struct Rows<const B: usize> {
    states: usize,
    /// The places that follow each place.
    follow: Vec<[u64; B]>,
    /// The places of each label.
    enter: Vec<[u64; B]>,
    /// The places where a path of their list may end.
    ends: [u64; B],
    /// The states that a path ending there leads to, at 64 × B × state + place.
    ended: Vec<u64>,
    start: u64,
    accepting: u64,
    /// For each state all places that some label leads to.
    followed: Vec<[u64; B]>,
}

impl<const B: usize> Rows<B> {
    pub fn new(job: &Job, rewriting: &Rewriting) -> Rows<B> {
        let width = 1 + job.lists().iter().map(|list| list.size).sum::<usize>();
        let closures = closures(rewriting, job.lists());
        let mut rows = Rows {
            states: rewriting.count,
            follow: vec![[0; B]; width],
            enter: vec![[0; B]; job.labels],
            ends: [0; B],
            ended: vec![0; 64 * B * rewriting.count],
            start: closures[0][0],
            accepting: rewriting.accepting()[0],
            followed: vec![[0; B]; rewriting.count],
        };
        rows.lay_out(job);
        rows.lay_out_ends(job, rewriting, &closures);
        rows
    }

    /// The lists' automata side by side, with one start.
    fn lay_out(&mut self, job: &Job) {
        let mut base = 0;
        for list in job.lists() {
            for place in 0..=list.size {
                let from = if place == 0 { 0 } else { base + place };
                for to in Bits(list.follow[place]) {
                    set(&mut self.follow[from], base + to);
                }
            }
            for place in 1..=list.size {
                set(&mut self.enter[list.label[place] as usize], base + place);
            }
            base += list.size;
        }
    }

    /// Where paths may end, and the states that they then lead to.
    fn lay_out_ends(&mut self, job: &Job, found: &Rewriting, closures: &[[u64; 4]]) {
        let mut base = 0;
        for (number, list) in job.lists().iter().enumerate() {
            for place in Bits(list.accepting & !1) {
                set(&mut self.ends, base + place);
                for state in 0..found.count {
                    let next = found.next[found.lists * state + number] as usize;
                    self.ended[64 * B * state + base + place] = closures[next][0];
                }
            }
            base += list.size;
        }
    }

    /// The states that paths may end at, from the row of a state.
    #[inline(always)]
    fn ended(&self, state: usize, row: &[u64; B]) -> u64 {
        let ended = &self.ended[64 * B * state..][..64 * B];
        let mut alone = 0;
        for word in 0..B {
            for place in Bits(row[word] & self.ends[word]) {
                alone |= ended[64 * word + place];
            }
        }
        alone
    }
}

fn set(words: &mut [u64], place: usize) {
    words[place / 64] |= 1 << (place % 64);
}

impl<const B: usize> Cover for Rows<B> {
    fn words(&self) -> usize {
        B * self.states
    }

    fn start(&self, to: &mut [u64]) {
        to.fill(0);
        for state in Bits(self.start) {
            to[B * state] |= 1;
        }
    }

    #[inline(always)]
    fn follow(&mut self, from: &[u64]) {
        let (rows, _) = from.as_chunks::<B>();
        for (row, followed) in rows.iter().zip(&mut self.followed) {
            *followed = [0; B];
            for_each(row, |place| unite(followed, &self.follow[place]));
        }
    }

    #[inline(always)]
    fn step(&self, label: usize, to: &mut [u64]) {
        let enter = &self.enter[label];
        let mut alone = 0;
        let (rows, _) = to.as_chunks_mut::<B>();
        for (state, (row, followed)) in rows.iter_mut().zip(&self.followed).enumerate() {
            *row = std::array::from_fn(|word| followed[word] & enter[word]);
            alone |= self.ended(state, row);
        }
        for state in Bits(alone) {
            to[B * state] |= 1;
        }
    }

    #[inline(always)]
    fn yields(&self, set: &[u64]) -> bool {
        Bits(self.accepting).any(|state| set[B * state] & 1 == 1)
    }
}
