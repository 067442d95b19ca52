//! What the other peers need of a case, with the answers that were compared:
//! for foma a file of jobs, for SQLite and rdflib one of a graph.

use crate::input::{Case, Input, Operation};
use crate::lent::Lent;
use std::fmt::Write;
use std::path::Path;

pub fn write(folder: &Path, case: &Case, answers: &[(u64, Lent)]) {
    let text = match case.operation() {
        Operation::Find | Operation::Verdict => jobs(case, answers),
        Operation::Links | Operation::Lists => graph(&case.inputs[0], &answers[0].1),
    };
    std::fs::write(folder.join(format!("{}.case", case.name)), text).expect("a case's file");
}

/// Each job, then the states, then the missed path (length -1: none).
fn jobs(case: &Case, answers: &[(u64, Lent)]) -> String {
    let mut text = String::new();
    for (input, (told, lent)) in case.inputs.iter().zip(answers) {
        text += &String::from_utf8_lossy(&input.job);
        text += &states(input, lent);
        if input.operation == Operation::Verdict {
            text += &missed(*told, lent);
            text += &pairs(*told, input);
        }
        text += "end\n";
    }
    text
}

fn states(input: &Input, lent: &Lent) -> String {
    let (states, lists) = (reached(&lent.table, input.lists()), input.lists());
    let mut text = format!("states {states}\n");
    for state in 0..states {
        write!(text, "{}", lent.flags[state]).unwrap();
        for next in &lent.table[16 * state..][..lists] {
            write!(text, " {next}").unwrap();
        }
        text += "\n";
    }
    text
}

/// How many states a table has: one more than the greatest of its numbers.
fn reached(table: &[u16], lists: usize) -> usize {
    let rows = table.chunks_exact(16).flat_map(|row| &row[..lists]);
    1 + rows.max().map_or(0, |&most| most as usize)
}

fn missed(told: u64, lent: &Lent) -> String {
    let length = (told >> 48) as i64 - 1;
    let mut text = format!("missed {length}\n");
    for label in lent.path.iter().take(length.max(0) as usize) {
        writeln!(text, "{label}").unwrap();
    }
    text
}

/// The number of pairs, and the automaton whose sets of states they are.
fn pairs(told: u64, input: &Input) -> String {
    let mut arcs = peer::pair_automaton(&input.job).expect("a job that is answered");
    arcs.sort();
    arcs.dedup();
    let mut text = format!("pairs {} {}\n", told >> 32 & 0xffff, arcs.len());
    for (from, label, to) in arcs {
        writeln!(text, "{from} {label} {to}").unwrap();
    }
    text
}

/// The query, the links, the automaton's moves without dead ends, its
/// accepting states, and the marked recordings.
fn graph(input: &Input, lent: &Lent) -> String {
    let automaton = crate::moves::automaton(input);
    let mut text = format!("start {}\nrecordings {}\n", input.start, input.recordings);
    text += &format!("query {}\n", input.query());
    for link in input.links.chunks_exact(3) {
        writeln!(text, "link {} {} {}", link[0], link[1], link[2]).unwrap();
    }
    for (from, symbol, to) in &automaton.moves {
        writeln!(text, "move {from} {symbol} {to}").unwrap();
    }
    for state in &automaton.accepting {
        writeln!(text, "accepting {state}").unwrap();
    }
    for (recording, _) in lent.marks.iter().enumerate().filter(|(_, &mark)| mark == 1) {
        writeln!(text, "marked {recording}").unwrap();
    }
    text
}
