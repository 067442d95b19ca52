//! The printed form: Find, then Verdict, which the program allows 128 pairs.

use crate::find::find_by;
use crate::read::{read, Refusal};
use crate::turn::Turn;
use crate::verdict::verdict_by;

pub const PRINTED_ALLOWANCE: usize = 128;

/// All that the program prints for a job text.
pub fn printed(text: &[u8]) -> String {
    printed_by(Turn::Right, text)
}

pub fn printed_by(turn: Turn, text: &[u8]) -> String {
    printed_at(turn, text, PRINTED_ALLOWANCE)
}

/// As `printed_by`, with another allowance.
pub fn printed_at(turn: Turn, text: &[u8], allowance: usize) -> String {
    let mut out = String::new();
    if let Err(refusal) = print(turn, text, allowance, &mut out) {
        match refusal.line {
            0 => out += &format!("refused {}\n", refusal.number),
            line => out += &format!("refused {} line {line}\n", refusal.number),
        }
    }
    out
}

fn print(turn: Turn, text: &[u8], allowance: usize, out: &mut String) -> Result<(), Refusal> {
    let refusal = |number| Refusal { number, line: 0 };
    let job = read(text)?;
    let found = find_by(turn, &job).map_err(refusal)?;
    *out += &format!("query {}\n", found.standings);
    *out += &format!("states {}\n", found.table.states());
    for (state, row) in found.table.next.iter().enumerate() {
        let sign = if found.table.accepting[state] { '+' } else { '-' };
        *out += &format!("{state} {sign}");
        for next in row {
            *out += &format!(" {next}");
        }
        *out += "\n";
    }
    match &found.first {
        Some(word) => *out += &named("first", word, |list| &job.lists[list].name),
        None => *out += "empty\n",
    }
    let verdict = verdict_by(turn, &job, allowance).map_err(refusal)?;
    match &verdict.missed {
        Some(path) => *out += &named("missed", path, |label| &job.labels[label]),
        None => *out += "complete\n",
    }
    *out += &format!("pairs {}\n", verdict.pairs);
    Ok(())
}

/// A line of a word and the names of the numbers after it.
fn named<'a>(word: &str, numbers: &[usize], name: impl Fn(usize) -> &'a str) -> String {
    let names = numbers.iter().map(|number| format!(" {}", name(*number)));
    format!("{word}{}\n", names.collect::<String>())
}
