//! Jobs in parts, and what the parts are made of.

use crate::generate::{alternative, Random};
use crate::jobs::text;
use crate::read::{read, MOST_LABELS};

/// A job in parts.
#[derive(Clone)]
pub struct Parts {
    pub labels: Vec<String>,
    pub query: String,
    pub lists: Vec<String>,
}

impl Parts {
    pub fn text(&self) -> Vec<u8> {
        text(&self.labels, &self.query, &self.lists).into_bytes()
    }
}

/// Draws parts until they are a right job.
pub fn drawn(random: &mut Random, draw: fn(&mut Random) -> Parts) -> Vec<u8> {
    loop {
        let text = draw(random).text();
        if read(&text).is_ok() {
            return text;
        }
    }
}

/// Some short names in any order, so that label order is not that of letters.
pub fn labels(random: &mut Random, count: usize) -> Vec<String> {
    let letters = (b'a'..=b'z').map(|letter| (letter as char).to_string());
    let mut names: Vec<String> = letters.chain((0..6).map(|n| format!("a{n}"))).collect();
    if count <= 4 {
        names.truncate(4);
    }
    assert!(count <= MOST_LABELS);
    for place in 0..count {
        let other = random.between(place, names.len() - 1);
        names.swap(place, other);
    }
    names.truncate(count);
    names
}

/// An expression of `atoms` of the pieces or `()`.
pub fn expression(random: &mut Random, pieces: &[String], atoms: usize, depth: usize) -> String {
    let pieces: Vec<Vec<u8>> = pieces.iter().map(|piece| piece.clone().into()).collect();
    let mut out = Vec::new();
    alternative(random, &pieces, atoms, depth, &mut out);
    String::from_utf8(out).expect("pieces and marks")
}

pub fn lists(random: &mut Random, labels: &[String], count: usize, most: usize) -> Vec<String> {
    let mut lists = Vec::new();
    for _ in 0..count {
        let atoms = random.between(1, most);
        lists.push(expression(random, labels, atoms, 2));
    }
    lists
}

/// The lists as pieces of another expression.
pub fn pieces(lists: &[String]) -> Vec<String> {
    lists.iter().map(|list| format!("({list})")).collect()
}

/// A sequence of labels, some of them optional or repeated.
pub fn row(random: &mut Random, labels: &[String], length: usize, marked: usize) -> String {
    let mut factors = Vec::new();
    for _ in 0..length {
        let mark = if random.below(100) < marked { random.pick(&["?", "*"]) } else { "" };
        factors.push(format!("{}{mark}", random.pick(labels)));
    }
    factors.join(".")
}
