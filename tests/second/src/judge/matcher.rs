//! The matcher: paths of expressions by backtracking, and all short sequences.

use super::Path;
use crate::read::{Expr, Job};
use std::collections::BTreeSet;

/// Whether some path of the expression begins `path` such that the rest of it
/// pleases `then`.
fn reads(expr: &Expr, path: &[usize], then: &dyn Fn(&[usize]) -> bool) -> bool {
    match expr {
        Expr::Empty => then(path),
        Expr::Label(label) => path.first() == Some(label) && then(&path[1..]),
        Expr::Alt(parts) => parts.iter().any(|part| reads(part, path, then)),
        Expr::Seq(parts) => reads_each(parts, path, then),
        Expr::Opt(inner) => then(path) || reads(inner, path, then),
        Expr::Star(inner) => {
            let again = |rest: &[usize]| rest.len() < path.len() && reads(expr, rest, then);
            then(path) || reads(inner, path, &again)
        }
    }
}

fn reads_each(parts: &[Expr], path: &[usize], then: &dyn Fn(&[usize]) -> bool) -> bool {
    match parts.split_first() {
        None => then(path),
        Some((one, others)) => reads(one, path, &|rest| reads_each(others, rest, then)),
    }
}

pub fn is_path_of(expr: &Expr, path: &[usize]) -> bool {
    reads(expr, path, &|rest| rest.is_empty())
}

pub fn occurrences(expr: &Expr) -> usize {
    match expr {
        Expr::Empty => 0,
        Expr::Label(_) => 1,
        Expr::Alt(parts) | Expr::Seq(parts) => parts.iter().map(occurrences).sum(),
        Expr::Star(inner) | Expr::Opt(inner) => occurrences(inner),
    }
}

/// How many places a state has in the cover: itself, and one for each occurrence
/// of the lists.
pub fn offsets(job: &Job) -> usize {
    1 + job.lists.iter().map(|list| occurrences(&list.expr)).sum::<usize>()
}

/// How many beginnings the lists have that are sequences, those of several
/// lists counted once.
pub fn beginnings(job: &Job) -> usize {
    let mut found = BTreeSet::new();
    for list in &job.lists {
        if let Expr::Seq(parts) = &list.expr {
            found.extend((1..=parts.len()).map(|length| format!("{:?}", &parts[..length])));
        }
    }
    found.len()
}

/// The occurrences that can be the last one read when `path`, not empty,
/// begins a path of the expression. The first occurrence has the number
/// `number`.
pub fn lasts(expr: &Expr, number: usize, path: &[usize]) -> BTreeSet<usize> {
    let mut found = BTreeSet::new();
    match expr {
        Expr::Empty => {}
        Expr::Label(label) => {
            if path == [*label] {
                found.insert(number);
            }
        }
        Expr::Alt(parts) => {
            let mut number = number;
            for part in parts {
                found.extend(lasts(part, number, path));
                number += occurrences(part);
            }
        }
        Expr::Seq(parts) => {
            let mut number = number;
            for (before, part) in parts.iter().enumerate() {
                for cut in 0..path.len() {
                    if reads_each(&parts[..before], &path[..cut], &|rest| rest.is_empty()) {
                        found.extend(lasts(part, number, &path[cut..]));
                    }
                }
                number += occurrences(part);
            }
        }
        Expr::Opt(inner) => found = lasts(inner, number, path),
        Expr::Star(inner) => {
            for cut in 0..path.len() {
                if is_path_of(expr, &path[..cut]) {
                    found.extend(lasts(inner, number, &path[cut..]));
                }
            }
        }
    }
    found
}

/// The standing after a path; 0 is the start.
pub fn standing(expr: &Expr, path: &[usize]) -> BTreeSet<usize> {
    if path.is_empty() {
        BTreeSet::from([0])
    } else {
        lasts(expr, 1, path)
    }
}

/// The length of the longest path, if there is one.
pub fn longest(expr: &Expr) -> Option<usize> {
    match expr {
        Expr::Empty => Some(0),
        Expr::Label(_) => Some(1),
        Expr::Alt(parts) => parts.iter().map(longest).try_fold(0, |a, b| Some(a.max(b?))),
        Expr::Seq(parts) => parts.iter().map(longest).try_fold(0, |a, b| Some(a + b?)),
        Expr::Opt(inner) => longest(inner),
        Expr::Star(inner) => longest(inner).filter(|length| *length == 0),
    }
}

/// All sequences of at most `most` numbers below `end`, the shortest first,
/// then in order from the first number.
pub fn sequences(end: usize, most: usize) -> Vec<Path> {
    let mut all: Vec<Path> = vec![Vec::new()];
    let mut first = 0;
    for _ in 0..most {
        let last = all.len();
        for before in first..last {
            for number in 0..end {
                let mut longer = all[before].clone();
                longer.push(number);
                all.push(longer);
            }
        }
        first = last;
    }
    all
}
