//! Cover places: a state alone, or a state with one label occurrence of one
//! list, and where each leads.

use crate::automaton::Automaton;
use crate::read::Job;
use crate::table::Table;
use crate::turn::Turn;
use std::collections::BTreeSet;

pub const MOST_PLACES: usize = 1024;

/// With `size` occurrences in all lists, state s alone is place s × (1 + size),
/// and the occurrences in that state come after it.
pub struct Cover {
    size: usize,
    /// The places the empty path reaches, rising.
    pub start: Vec<usize>,
    /// The places one more label leads to: `next[label][place]`.
    next: Vec<Vec<Vec<usize>>>,
}

impl Cover {
    /// Refusal 12, over 1,024 places.
    pub fn new(turn: Turn, job: &Job, table: &Table) -> Result<Cover, u8> {
        let lists = job.lists.iter().map(|list| turn.list(&list.expr));
        let lists: Vec<Automaton> = lists.collect();
        let size: usize = lists.iter().map(Automaton::occurrences).sum();
        let states = table.states();
        if states * (1 + size) > MOST_PLACES {
            return Err(12);
        }
        let with_empty_names: Vec<Vec<usize>> = (0..states)
            .map(|state| {
                let states = with_empty_names(&lists, table, state);
                states.iter().map(|state| state * (1 + size)).collect()
            })
            .collect();

        let mut next = vec![vec![Vec::new(); states * (1 + size)]; job.labels.len()];
        for state in 0..states {
            let alone = state * (1 + size);
            // The place of the last occurrence before this list.
            let mut before = alone;
            for (list, automaton) in lists.iter().enumerate() {
                let ended = &with_empty_names[table.next[state][list]];
                for position in 0..=automaton.occurrences() {
                    // The list's start is the state alone.
                    let place = if position == 0 { alone } else { before + position };
                    for (label, follower) in automaton.steps(position) {
                        next[label][place].push(before + follower);
                        if automaton.ends_at(follower) {
                            next[label][place].extend(ended);
                        }
                    }
                }
                before += automaton.occurrences();
            }
        }
        let start = with_empty_names[0].clone();
        Ok(Cover { size, start, next })
    }

    /// The places that one more label leads to, rising.
    pub fn after(&self, places: &[usize], label: usize) -> Vec<usize> {
        let next = &self.next[label];
        let mut reached = vec![false; next.len()];
        for place in places {
            for after in &next[*place] {
                reached[*after] = true;
            }
        }
        (0..next.len()).filter(|place| reached[*place]).collect()
    }

    /// The state, if the place is one alone.
    pub fn state_alone(&self, place: usize) -> Option<usize> {
        let state = place / (1 + self.size);
        (place == state * (1 + self.size)).then_some(state)
    }
}

/// The state, and those after it by names of the empty path: a word that
/// spells a path, with such names after it, spells that path too.
fn with_empty_names(lists: &[Automaton], table: &Table, state: usize) -> BTreeSet<usize> {
    let mut reached = BTreeSet::from([state]);
    let mut waiting = vec![state];
    while let Some(here) = waiting.pop() {
        for (list, automaton) in lists.iter().enumerate() {
            let next = table.next[here][list];
            if automaton.nullable && reached.insert(next) {
                waiting.push(next);
            }
        }
    }
    reached
}
