//! A column of states for each occurrence, all states of it at once. Column 0
//! has the states alone.

use super::closure::closures;
use super::Cover;
use crate::bits::{for_each, meet, unite, Bits};
use crate::expression::Automaton;
use crate::job::Job;
use crate::states::Rewriting;

/// An occurrence: its column, and the columns that lead to it.
struct Occurrence {
    column: usize,
    from: Vec<u16>,
    ends: bool,
}

/// The occurrences of one label in one list, and where its paths' ends lead.
struct Group {
    occurrences: Vec<Occurrence>,
    list: usize,
}

/// S words have all states.
pub struct Columns<const S: usize> {
    width: usize,
    groups: Vec<Vec<Group>>,
    /// The states that a path of the list leads to, at states × list + state.
    ended: Vec<[u64; S]>,
    states: usize,
    start: [u64; S],
    accepting: [u64; S],
    from: Vec<u64>,
}

fn cut<const S: usize>(set: [u64; 4]) -> [u64; S] {
    std::array::from_fn(|word| set[word])
}

impl<const S: usize> Columns<S> {
    pub fn new(job: &Job, rewriting: &Rewriting) -> Columns<S> {
        let closures = closures(rewriting, job.lists());
        let (lists, states) = (rewriting.lists, rewriting.count);
        let places = (0..lists).flat_map(|list| (0..states).map(move |state| lists * state + list));
        let ended = places.map(|place| cut(closures[rewriting.next[place] as usize])).collect();
        Columns {
            width: 1 + job.lists().iter().map(|list| list.size).sum::<usize>(),
            groups: (0..job.labels).map(|label| groups(job, label)).collect(),
            ended,
            states,
            start: cut(closures[0]),
            accepting: cut(rewriting.accepting()),
            from: Vec::new(),
        }
    }
}

fn groups(job: &Job, label: usize) -> Vec<Group> {
    let (mut groups, mut base) = (Vec::new(), 0);
    for (number, list) in job.lists().iter().enumerate() {
        let occurrences: Vec<Occurrence> = Bits(list.enter[label]).map(|place| occurrence(list, place, base)).collect();
        if !occurrences.is_empty() {
            groups.push(Group { occurrences, list: number });
        }
        base += list.size;
    }
    groups
}

/// The place of a list whose occurrences have the columns from base + 1 on.
fn occurrence(list: &Automaton, place: usize, base: usize) -> Occurrence {
    let before = (0..=list.size).filter(|&other| list.follow[other] >> place & 1 == 1);
    let from = before.map(|other| if other == 0 { 0 } else { (base + other) as u16 }).collect();
    Occurrence { column: base + place, from, ends: list.accepting >> place & 1 == 1 }
}

impl<const S: usize> Cover for Columns<S> {
    fn words(&self) -> usize {
        S * self.width
    }

    fn start(&self, to: &mut [u64]) {
        to.fill(0);
        to[..S].copy_from_slice(&self.start);
    }

    #[inline(always)]
    fn follow(&mut self, from: &[u64]) {
        self.from.clear();
        self.from.extend_from_slice(from);
    }

    #[inline(always)]
    fn step(&self, label: usize, to: &mut [u64]) {
        to.fill(0);
        let mut alone = [0; S];
        for group in &self.groups[label] {
            let mut ends = [0; S];
            for occurrence in &group.occurrences {
                let mut states = [0; S];
                for &column in &occurrence.from {
                    unite(&mut states, &self.from[S * column as usize..][..S]);
                }
                to[S * occurrence.column..][..S].copy_from_slice(&states);
                if occurrence.ends {
                    unite(&mut ends, &states);
                }
            }
            let ended = &self.ended[self.states * group.list..][..self.states];
            for_each(&ends, |state| unite(&mut alone, &ended[state]));
        }
        to[..S].copy_from_slice(&alone);
    }

    #[inline(always)]
    fn yields(&self, set: &[u64]) -> bool {
        meet(&set[..S], &self.accepting)
    }
}
