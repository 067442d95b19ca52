//! Wrong turns in merging.

use super::Turn;
use crate::merge::{apart, apart_within, classes};
use crate::table::Table;

impl Turn {
    /// For each state the first of those that are taken to be one with it.
    pub fn classes(self, table: &Table) -> Vec<usize> {
        match self {
            // With no pair marked at first, none ever is.
            Turn::FlagsIgnored => vec![0; table.states()],
            Turn::OneRound => classes(&apart_within(table, 1)),
            Turn::EqualRows => equal_rows(table),
            _ => classes(&apart(table)),
        }
    }

    /// The merged table as it is handed on. `last` is for each state the last
    /// of those it was merged from.
    pub fn handed_on(self, merged: Table, last: &[usize]) -> Table {
        match self {
            Turn::DeadDropped => without_dead(merged),
            Turn::LastMembers => by_last(&merged, last),
            _ => merged,
        }
    }
}

/// States with one flag and one row become one, again and again.
fn equal_rows(table: &Table) -> Vec<usize> {
    let states = 0..table.states();
    let mut class: Vec<usize> = states.clone().collect();
    loop {
        let row = |state: usize| -> (bool, Vec<usize>) {
            let next = table.next[state].iter().map(|next| class[*next]);
            (table.accepting[state], next.collect())
        };
        let first = |state| states.clone().find(|first| row(*first) == row(state));
        let merged: Vec<usize> = states.clone().filter_map(first).collect();
        if merged == class {
            return class;
        }
        class = merged;
    }
}

/// Without the state from which no accepted one is reached, unless it is the
/// first: where a list led to it, a zero is left.
fn without_dead(mut table: Table) -> Table {
    let is_dead = |state: &usize| !table.accepting[*state] && table.next[*state].iter().all(|next| next == state);
    let Some(dead) = (1..table.states()).find(is_dead) else { return table };
    table.next.remove(dead);
    table.accepting.remove(dead);
    for next in table.next.iter_mut().flatten() {
        *next = match *next {
            next if next == dead => 0,
            next => next - usize::from(next > dead),
        };
    }
    table
}

/// The same states in the order of what they were merged from last.
fn by_last(table: &Table, last: &[usize]) -> Table {
    let number = |state: &usize| last.iter().filter(|other| **other < last[*state]).count();
    let mut numbered = table.clone();
    for (state, row) in table.next.iter().enumerate() {
        numbered.next[number(&state)] = row.iter().map(number).collect();
        numbered.accepting[number(&state)] = table.accepting[state];
    }
    numbered
}
