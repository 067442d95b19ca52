//! The numbers of standings and of states of a job, before any are merged,
//! whatever the limits.

use crate::automaton::{Automaton, Standing, Standings};
use crate::explore::Explored;
use crate::read::Job;
use crate::states::after_list;
use std::collections::BTreeSet;

pub fn all_standings(job: &Job) -> usize {
    let query = Automaton::new(&job.query);
    let step = |here: &Standing, label| query.after(here, label);
    Explored::new(query.start(), job.labels.len(), usize::MAX, step).expect("no limit").values.len()
}

/// The query must have at most 64 standings.
pub fn all_states(job: &Job) -> usize {
    let query = Standings::new(&Automaton::new(&job.query), job.labels.len()).expect("few standings");
    let lists: Vec<Automaton> = job.lists.iter().map(|list| Automaton::new(&list.expr)).collect();
    let step = |state: &BTreeSet<usize>, list: usize| -> BTreeSet<usize> {
        state.iter().flat_map(|from| after_list(&query, *from, &lists[list])).collect()
    };
    Explored::new(BTreeSet::from([0]), lists.len(), usize::MAX, step).expect("no limit").values.len()
}
