//! Jobs with faults made on purpose, often several in one line.

use super::bad_expression::bad_expression;
use super::random::Random;
use super::right::{add_list, close, name_of_bytes, new_name, right_job, Draft};
use super::MARKED_BYTES;
use crate::read::{MOST_LABELS, MOST_LISTS, MOST_NAME_BYTES};

/// A job with one to four faults, each of a chosen kind.
pub fn broken(random: &mut Random) -> Vec<u8> {
    let mut draft = right_job(random);
    let in_parts = random.between(0, 2);
    let in_lines = match in_parts {
        0 => random.between(1, 2),
        _ => random.below(4) / 2,
    };
    for _ in 0..in_parts {
        break_part(random, &mut draft);
    }
    let mut lines = draft.lines();
    for _ in 0..in_lines {
        break_line(random, &mut lines);
    }
    let mut text = close(&lines);
    if random.one_in(6) {
        // The last line not closed.
        text.pop();
    }
    text
}

/// A number below `end`, often the last: the last label and the last list are
/// where limits and faults meet.
fn place(random: &mut Random, end: usize) -> usize {
    if random.one_in(3) {
        end - 1
    } else {
        random.below(end)
    }
}

fn break_part(random: &mut Random, draft: &mut Draft) {
    match random.below(12) {
        0 => {
            let count = MOST_LABELS + random.between(1, 2);
            while draft.labels.len() < count {
                let name = new_name(random, &draft.labels);
                draft.labels.push(name);
            }
        }
        1 => {
            let count = MOST_LISTS + random.between(1, 2);
            while draft.lists.len() < count {
                add_list(random, draft);
            }
        }
        2 => {
            let label = place(random, draft.labels.len());
            draft.labels[label] = bad_name(random);
        }
        3 if !draft.lists.is_empty() => {
            let list = place(random, draft.lists.len());
            draft.lists[list].0 = bad_name(random);
        }
        4 => {
            let label = place(random, draft.labels.len());
            draft.labels[label] = random.pick(&draft.labels).clone();
        }
        5 if !draft.lists.is_empty() => {
            let list = place(random, draft.lists.len());
            draft.lists[list].0 = random.pick(&draft.list_names()).clone();
        }
        _ => {
            let number = place(random, draft.expressions());
            let expr = bad_expression(random, &draft.labels);
            draft.set_expression(number, expr);
        }
    }
}

fn bad_name(random: &mut Random) -> Vec<u8> {
    let name = new_name(random, &[]);
    match random.below(8) {
        0 => Vec::new(),
        1 => {
            let bytes = MOST_NAME_BYTES + random.between(1, 3);
            name_of_bytes(random, bytes)
        }
        2 => [b"-", &name[..]].concat(),
        3 => [&[*random.pick(b"0123456789")], &name[..]].concat(),
        4 => name.to_ascii_uppercase(),
        5 => [&name[..], b" ", &name[..]].concat(),
        _ => {
            let mut name = name;
            let at = random.below(name.len() + 1);
            name.insert(at, *random.pick(MARKED_BYTES));
            name
        }
    }
}

/// One line made worse, or put where it does not belong.
fn break_line(random: &mut Random, lines: &mut Vec<Vec<u8>>) {
    if lines.is_empty() {
        return;
    }
    let at = place(random, lines.len());
    let spaces: Vec<usize> = (0..lines[at].len()).filter(|&n| lines[at][n] == b' ').collect();
    match random.below(12) {
        0 => lines[at] = other_word(random, &lines[at], &spaces),
        1 | 2 if !spaces.is_empty() => {
            lines[at].remove(*random.pick(&spaces));
        }
        3 if !spaces.is_empty() => lines[at].insert(*random.pick(&spaces), b' '),
        4 => lines[at].push(b' '),
        5 => lines[at].push(13),
        6 => {
            let line = lines.remove(at);
            let to = random.below(lines.len() + 1);
            lines.insert(to, line);
        }
        7 => {
            let line = lines[at].clone();
            let to = random.below(lines.len() + 1);
            lines.insert(to, line);
        }
        8 => {
            lines.remove(at);
        }
        9 => lines.insert(at, Vec::new()),
        10 => {
            // The end of the line is missing.
            let bytes = random.below(lines[at].len() + 1);
            lines[at].truncate(bytes);
        }
        _ => {
            // The text ends before the query.
            let labels = lines.iter().position(|line| line.starts_with(b"query"));
            lines.truncate(labels.unwrap_or(at));
        }
    }
}

/// The line with another opening word.
fn other_word(random: &mut Random, line: &[u8], spaces: &[usize]) -> Vec<u8> {
    let words: [&[u8]; 16] = [
        b"label", b"query", b"list", b"labels", b"lable", b"Label", b"quer", b"queryy", b"lis", b"lists", b"LIST", b"",
        b"list\t", b"\xff", b" list", b"labe",
    ];
    let word = *random.pick(&words);
    let rest = spaces.first().map_or(line.len(), |&n| n);
    [word, &line[rest..]].concat()
}
