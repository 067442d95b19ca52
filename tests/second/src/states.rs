//! The states of the list words, before any of them are merged: for each word
//! the set of query standings after the paths it spells.

use crate::automaton::{Automaton, Standings};
use crate::explore::Explored;
use crate::read::Job;
use crate::table::Table;
use crate::turn::Turn;
use std::collections::BTreeSet;

pub const MOST_STATES: usize = 256;

#[derive(Clone, Debug, PartialEq, Eq)]
pub struct States {
    /// The number of query standings.
    pub standings: usize,
    /// The query standings of each state, by the shortest word that reaches
    /// it, ties by list order.
    pub sets: Vec<BTreeSet<usize>>,
    /// A state accepts if all its standings do.
    pub table: Table,
    /// The shortest accepted word, first in list order.
    pub first: Option<Vec<usize>>,
}

impl States {
    /// Refusals: 9, over 64 query standings; 10, over 256 states.
    pub fn of(job: &Job) -> Result<States, u8> {
        States::by(Turn::Right, job)
    }

    pub fn by(turn: Turn, job: &Job) -> Result<States, u8> {
        let query = turn.query(job)?;
        let lists: Vec<Vec<BTreeSet<usize>>> = job
            .lists
            .iter()
            .map(|list| {
                let list = turn.list(&list.expr);
                let each = 0..query.count();
                each.map(|from| after_list(&query, from, &list)).collect()
            })
            .collect();

        let step = |state: &BTreeSet<usize>, list: usize| -> BTreeSet<usize> {
            let each = state.iter().flat_map(|from| &lists[list][*from]);
            each.copied().collect()
        };
        let start = BTreeSet::from([0]);
        let states = Explored::new(start, lists.len(), MOST_STATES, step).ok_or(10)?;

        let accepts = |state: &BTreeSet<usize>| turn.all(state.iter().map(|s| query.accepts[*s]));
        let accepting: Vec<bool> = states.values.iter().map(accepts).collect();
        let least = accepting.iter().position(|accepting| *accepting);
        Ok(States {
            standings: query.count(),
            first: least.map(|state| states.word(state)),
            sets: states.values,
            table: Table { next: states.next, accepting },
        })
    }
}

/// The query standings after the paths of a list, read from one standing.
pub fn after_list(query: &Standings, from: usize, list: &Automaton) -> BTreeSet<usize> {
    let mut met = vec![vec![false; 1 + list.occurrences()]; query.count()];
    met[from][0] = true;
    let mut waiting = vec![(from, 0)];
    let mut after = BTreeSet::new();
    while let Some((standing, position)) = waiting.pop() {
        if list.ends_at(position) {
            after.insert(standing);
        }
        for (label, follower) in list.steps(position) {
            let next = query.next[standing][label];
            if !met[next][follower] {
                met[next][follower] = true;
                waiting.push((next, follower));
            }
        }
    }
    after
}
