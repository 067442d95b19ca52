//! Merging: states that no list word tells apart become one, so that no
//! complete deterministic table with fewer states accepts the same words.
//!
//! This is the table-filling algorithm (Hopcroft and Ullman, *Introduction to
//! Automata Theory, Languages, and Computation*, section 3.4). A pair of states
//! is marked if one of the two accepts and the other does not, and then if a
//! list leads from it to a marked pair. The states of a pair that is never
//! marked are one.

use crate::explore::Explored;
use crate::table::Table;
use crate::turn::Turn;
use std::collections::VecDeque;

/// The table with its states merged, numbered by the shortest word reaching
/// each, ties by list order.
pub fn merged(table: &Table) -> Table {
    merged_by(Turn::Right, table)
}

pub fn merged_by(turn: Turn, table: &Table) -> Table {
    let class = turn.classes(table);
    let step = |state: &usize, list: usize| class[table.next[*state][list]];
    let classes = Explored::new(class[0], table.lists(), usize::MAX, step).expect("no limit");
    let accepting = classes.values.iter().map(|state| table.accepting[*state]).collect();
    let last = classes.values.iter().filter_map(|first| class.iter().rposition(|one| one == first));
    let last: Vec<usize> = last.collect();
    turn.handed_on(Table { next: classes.next, accepting }, &last)
}

/// For each state the first of those that are one with it.
pub fn classes(apart: &[Vec<bool>]) -> Vec<usize> {
    let first = |row: &Vec<bool>| row.iter().position(|apart| !apart);
    apart.iter().map(|row| first(row).expect("a state is one with itself")).collect()
}

/// The marked pairs: `apart[one][other]`.
pub fn apart(table: &Table) -> Vec<Vec<bool>> {
    apart_within(table, usize::MAX)
}

/// The pairs that a word of at most `most` lists tells apart.
pub fn apart_within(table: &Table, most: usize) -> Vec<Vec<bool>> {
    let states = table.states();
    let mut apart = vec![vec![false; states]; states];
    // Pairs that are marked, with the length of the shortest word that tells
    // them apart: these lengths never fall along the queue.
    let mut waiting = VecDeque::new();
    for one in 0..states {
        for other in 0..states {
            if table.accepting[one] != table.accepting[other] {
                apart[one][other] = true;
                waiting.push_back((one, other, 0));
            }
        }
    }
    let before = before(table);
    while let Some((one, other, length)) = waiting.pop_front() {
        if length == most {
            break;
        }
        for list in &before {
            for one in &list[one] {
                for other in &list[other] {
                    if !apart[*one][*other] {
                        apart[*one][*other] = true;
                        waiting.push_back((*one, *other, length + 1));
                    }
                }
            }
        }
    }
    apart
}

/// The states from which a list leads to a state: `before[list][state]`.
fn before(table: &Table) -> Vec<Vec<Vec<usize>>> {
    let mut before = vec![vec![Vec::new(); table.states()]; table.lists()];
    for (state, row) in table.next.iter().enumerate() {
        for (list, next) in row.iter().enumerate() {
            before[list][*next].push(state);
        }
    }
    before
}
