//! The automaton of an answer for peers that take one: standings of the query,
//! or states of the rewriting. What leads nowhere is left out.

use crate::input::{Input, Operation};
use crate::lent::Lent;

pub struct Automaton {
    /// (from, symbol, to).
    pub moves: Vec<(usize, usize, usize)>,
    pub accepting: Vec<usize>,
}

pub fn automaton(input: &Input) -> Automaton {
    let mut whole = match input.operation {
        Operation::Lists => states(input),
        _ => standings(input),
    };
    let useful = useful(&whole);
    whole.moves.retain(|&(from, _, to)| useful.contains(&from) && useful.contains(&to));
    whole
}

fn standings(input: &Input) -> Automaton {
    let (labels, next, accepting) = peer::query_automaton(&input.job).expect("a job that is answered");
    let moves = next.iter().enumerate().map(|(at, &to)| (at / labels, at % labels, to as usize));
    Automaton { moves: moves.collect(), accepting: (0..64).filter(|state| accepting >> state & 1 == 1).collect() }
}

fn states(input: &Input) -> Automaton {
    let mut lent = Lent::new(&Input { operation: Operation::Find, ..input.clone() });
    let told = peer::find(&input.job, &mut lent.table, &mut lent.flags, &mut lent.word);
    let (count, lists) = ((told >> 40 & 0xfff) as usize, input.lists());
    let rows = (0..count).flat_map(|state| (0..lists).map(move |list| (state, list)));
    let moves = rows.map(|(state, list)| (state, list, lent.table[16 * state + list] as usize)).collect();
    Automaton { moves, accepting: (0..count).filter(|&state| lent.flags[state] == 1).collect() }
}

/// The states from which an accepting one is reached.
fn useful(automaton: &Automaton) -> Vec<usize> {
    let mut useful = automaton.accepting.clone();
    let mut at = 0;
    while at < useful.len() {
        for &(from, _, to) in &automaton.moves {
            if to == useful[at] && !useful.contains(&from) {
                useful.push(from);
            }
        }
        at += 1;
    }
    useful
}
