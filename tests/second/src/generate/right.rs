//! Right jobs, in parts that can be changed afterwards.

use super::random::Random;
use crate::read::{
    MOST_DEPTH, MOST_EXPRESSION_BYTES, MOST_LABELS, MOST_LISTS, MOST_NAME_BYTES, MOST_OCCURRENCES, MOST_TEXT_BYTES,
};

/// A job in parts. What `right_job` gives is right; later changes may break it.
pub struct Draft {
    pub labels: Vec<Vec<u8>>,
    pub query: Vec<u8>,
    pub lists: Vec<(Vec<u8>, Vec<u8>)>,
}

impl Draft {
    /// The lines, without their closing bytes.
    pub fn lines(&self) -> Vec<Vec<u8>> {
        let mut lines = Vec::new();
        for label in &self.labels {
            lines.push([b"label ", &label[..]].concat());
        }
        lines.push([b"query ", &self.query[..]].concat());
        for (name, expr) in &self.lists {
            lines.push([b"list ", &name[..], b" ", &expr[..]].concat());
        }
        lines
    }

    pub fn text(&self) -> Vec<u8> {
        close(&self.lines())
    }

    /// The number of expressions: the query is number 0, then come the lists.
    pub fn expressions(&self) -> usize {
        1 + self.lists.len()
    }

    pub fn expression(&self, number: usize) -> &Vec<u8> {
        match number {
            0 => &self.query,
            _ => &self.lists[number - 1].1,
        }
    }

    pub fn set_expression(&mut self, number: usize, expr: Vec<u8>) {
        match number {
            0 => self.query = expr,
            _ => self.lists[number - 1].1 = expr,
        }
    }

    pub fn line_of_expression(&self, number: usize) -> u32 {
        (self.labels.len() + 1 + number) as u32
    }

    pub fn list_names(&self) -> Vec<Vec<u8>> {
        self.lists.iter().map(|(name, _)| name.clone()).collect()
    }
}

/// The lines, each closed by byte 10.
pub fn close(lines: &[Vec<u8>]) -> Vec<u8> {
    lines.iter().flat_map(|line| [&line[..], b"\n"].concat()).collect()
}

/// The text of a right job, of any size.
pub fn right_text(random: &mut Random) -> Vec<u8> {
    right_job(random).text()
}

/// A right job.
pub fn right_job(random: &mut Random) -> Draft {
    let labels = match random.below(6) {
        0 => random.between(1, MOST_LABELS),
        1 => MOST_LABELS,
        _ => random.between(1, 5),
    };
    let lists = match random.below(6) {
        0 => random.between(0, MOST_LISTS),
        1 => MOST_LISTS,
        _ => random.between(0, 4),
    };
    let labels = names(random, labels);
    right_job_with(random, labels, lists)
}

pub fn right_job_with(random: &mut Random, labels: Vec<Vec<u8>>, lists: usize) -> Draft {
    let query = expression(random, &labels);
    let mut draft = Draft { labels, query, lists: Vec::new() };
    for _ in 0..lists {
        add_list(random, &mut draft);
    }
    while draft.text().len() > MOST_TEXT_BYTES {
        draft.lists.pop();
    }
    draft
}

pub fn add_list(random: &mut Random, draft: &mut Draft) {
    let taken = draft.list_names();
    // A list may have a label's name.
    let label = random.pick(&draft.labels).clone();
    let name = if random.one_in(4) && !taken.contains(&label) { label } else { new_name(random, &taken) };
    let expr = expression(random, &draft.labels);
    draft.lists.push((name, expr));
}

pub fn names(random: &mut Random, count: usize) -> Vec<Vec<u8>> {
    let mut names = Vec::new();
    for _ in 0..count {
        let name = new_name(random, &names);
        names.push(name);
    }
    names
}

/// A name not among those taken.
pub fn new_name(random: &mut Random, taken: &[Vec<u8>]) -> Vec<u8> {
    loop {
        let bytes = match random.below(8) {
            0 => MOST_NAME_BYTES,
            1 => random.between(1, MOST_NAME_BYTES),
            2..=4 => 1,
            _ => random.between(1, 3),
        };
        let name = match random.below(40) {
            0 => random.pick(&["label", "query", "list"]).as_bytes().to_vec(),
            1..=4 if !taken.is_empty() => {
                // As one of those taken, but for its last byte.
                let mut name = random.pick(taken).clone();
                name.pop();
                name.push(*random.pick(b"abz"));
                name
            }
            _ => name_of_bytes(random, bytes),
        };
        if !taken.contains(&name) {
            return name;
        }
    }
}

pub fn name_of_bytes(random: &mut Random, bytes: usize) -> Vec<u8> {
    // With few letters, names often begin alike.
    let letters: &[u8] = if random.one_in(2) { b"ab" } else { b"abcdefghijklmnopqrstuvwxyz" };
    let mut name = vec![*random.pick(letters)];
    while name.len() < bytes {
        name.push(match random.below(4) {
            0 => *random.pick(b"-0123456789"),
            _ => *random.pick(letters),
        });
    }
    name
}

/// A right expression over the labels.
pub fn expression(random: &mut Random, labels: &[Vec<u8>]) -> Vec<u8> {
    let mut atoms = match random.below(10) {
        0 => random.between(1, MOST_OCCURRENCES),
        1..=3 => random.between(4, 20),
        _ => random.between(1, 4),
    };
    let depth = if random.one_in(4) { MOST_DEPTH } else { random.between(0, 4) };
    loop {
        let mut out = Vec::new();
        alternative(random, labels, atoms, depth, &mut out);
        if out.len() <= MOST_EXPRESSION_BYTES {
            return out;
        }
        atoms = atoms / 2 + 1;
    }
}

/// Writes an alternative of `atoms` label names or `()` in all, with
/// parentheses at most `depth` deep.
pub fn alternative(random: &mut Random, labels: &[Vec<u8>], atoms: usize, depth: usize, out: &mut Vec<u8>) {
    let mut left = atoms;
    loop {
        let part = random.between(1, left);
        sequence(random, labels, part, depth, out);
        left -= part;
        if left == 0 {
            return;
        }
        out.push(b'|');
    }
}

fn sequence(random: &mut Random, labels: &[Vec<u8>], atoms: usize, depth: usize, out: &mut Vec<u8>) {
    let mut left = atoms;
    loop {
        let part = if depth > 0 && random.one_in(3) { random.between(1, left) } else { 1 };
        factor(random, labels, part, depth, out);
        left -= part;
        if left == 0 {
            return;
        }
        out.push(b'.');
    }
}

/// More than one atom needs a depth above 0.
fn factor(random: &mut Random, labels: &[Vec<u8>], atoms: usize, depth: usize, out: &mut Vec<u8>) {
    if atoms > 1 || depth > 0 && random.one_in(6) {
        out.push(b'(');
        alternative(random, labels, atoms, depth - 1, out);
        out.push(b')');
    } else if depth > 0 && random.one_in(8) {
        out.extend(b"()");
    } else {
        out.extend(random.pick(labels));
    }
    while random.one_in(4) {
        out.push(*random.pick(b"*?"));
    }
}
