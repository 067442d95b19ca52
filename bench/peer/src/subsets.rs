//! The places of the query and all cover places as one automaton that is not
//! deterministic: the sets of its states that paths reach are the pairs. For
//! peers that make sets by themselves.

use crate::bits::for_each;
use crate::bits::Bits;
use crate::cover::closures;
use crate::expression::Automaton;
use crate::job::{read, Job};
use crate::standings::standings;
use crate::states::{rewriting, Rewriting};

/// (from, label, to); state 0 is the start.
pub type Arc = (usize, usize, usize);

/// The arcs, or None where there is no rewriting.
pub fn pair_automaton(job: &[u8]) -> Option<Vec<Arc>> {
    let job = read(job).ok()?;
    let query = standings(job.query(), job.labels).ok()?;
    let found = rewriting(&job, &query).ok()?;
    let mut arcs = Vec::new();
    occurrences(job.query(), |place, label, to| arcs.push((place, label, to)));
    let base = job.query().size + 1;
    cover(&job, &found, base, &mut arcs);
    arcs.extend(from_the_start(&job, &found, base, &arcs));
    Some(arcs)
}

/// All steps of an automaton.
fn occurrences(automaton: &Automaton, mut each: impl FnMut(usize, usize, usize)) {
    for place in 0..=automaton.size {
        for to in Bits(automaton.follow[place]) {
            each(place, automaton.label[to] as usize, to);
        }
    }
}

/// The steps of cover places, whose numbers begin at `base`.
fn cover(job: &Job, found: &Rewriting, base: usize, arcs: &mut Vec<Arc>) {
    let closures = closures(found, job.lists());
    let width = width(job);
    for state in 0..found.count {
        let (alone, mut offset) = (base + width * state, 0);
        for (number, list) in job.lists().iter().enumerate() {
            let ended = &closures[found.next[found.lists * state + number] as usize];
            occurrences(list, |place, label, to| {
                let from = if place == 0 { alone } else { alone + offset + place };
                arcs.push((from, label, alone + offset + to));
                if list.accepting >> to & 1 == 1 {
                    for_each(ended, |next| arcs.push((from, label, base + width * next)));
                }
            });
            offset += list.size;
        }
    }
}

fn width(job: &Job) -> usize {
    1 + job.lists().iter().map(|list| list.size).sum::<usize>()
}

/// The start has the steps of all states alone that the empty path reaches.
fn from_the_start(job: &Job, found: &Rewriting, base: usize, arcs: &[Arc]) -> Vec<Arc> {
    let mut starts = Vec::new();
    for_each(&closures(found, job.lists())[0], |state| starts.push(base + width(job) * state));
    let chosen = arcs.iter().filter(|(from, _, _)| starts.contains(from));
    chosen.map(|&(_, label, to)| (0, label, to)).collect()
}
