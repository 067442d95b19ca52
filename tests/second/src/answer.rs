//! Answers: which recordings a path leads to from a start.

use crate::automaton::{Automaton, Standings};
use crate::find::find;
use crate::read::{Expr, Job};
use std::collections::BTreeSet;

pub const MOST_RECORDINGS: usize = 4096;
pub const MOST_LINKS: usize = 16_384;

#[derive(Clone, Debug, PartialEq, Eq)]
pub struct Answer {
    pub marks: Vec<bool>,
    /// How many marks are set.
    pub number: usize,
}

/// Marks where a path of the chosen expression leads (0 the query, 1 upward a
/// list). Refusals: 17, no such expression; 15, bad table; 16, bad start; 9,
/// the chosen expression has over 64 standings.
pub fn from_links(job: &Job, recordings: usize, links: &[u16], chosen: usize, start: usize) -> Result<Answer, u8> {
    let expr = chosen_expression(job, chosen).ok_or(17)?;
    let leaving = leaving(links, recordings, job.labels.len()).ok_or(15)?;
    if start >= recordings {
        return Err(16);
    }
    let standings = Standings::new(&Automaton::new(expr), job.labels.len())?;
    Ok(walk(&leaving, start, &standings.next, &standings.accepts))
}

/// Marks where an accepted list word leads. Refusals: 15, bad table; 16, bad
/// start; 9 and 10 as in Find.
pub fn from_lists(job: &Job, recordings: usize, lists: &[u16], start: usize) -> Result<Answer, u8> {
    let leaving = leaving(lists, recordings, job.lists.len()).ok_or(15)?;
    if start >= recordings {
        return Err(16);
    }
    let table = find(job)?.table;
    Ok(walk(&leaving, start, &table.next, &table.accepting))
}

fn chosen_expression(job: &Job, chosen: usize) -> Option<&Expr> {
    match chosen {
        0 => Some(&job.query),
        _ => job.lists.get(chosen - 1).map(|list| &list.expr),
    }
}

/// Whether a table of links (or lists) is a right one.
pub fn is_table(table: &[u16], recordings: usize, labels: usize) -> bool {
    leaving(table, recordings, labels).is_some()
}

/// For each recording, the label (or list) numbers and ends of the links that
/// leave it; none if the table is not a right one.
fn leaving(table: &[u16], recordings: usize, labels: usize) -> Option<Vec<Vec<(usize, usize)>>> {
    if table.len() % 3 != 0 || table.len() / 3 > MOST_LINKS {
        return None;
    }
    let mut leaving = vec![Vec::new(); recordings];
    let mut before: Option<&[u16]> = None;
    for link in table.chunks(3) {
        // Slices compare at the first place where they differ.
        if before.is_some_and(|before| before >= link) {
            return None;
        }
        before = Some(link);
        let (from, label, to) = (link[0] as usize, link[1] as usize, link[2] as usize);
        if from >= recordings || label >= labels || to >= recordings {
            return None;
        }
        leaving[from].push((label, to));
    }
    Some(leaving)
}

/// Marks each recording that can be reached with an accepting place of the
/// deterministic automaton (`next[place][label]`), beginning at its place 0.
fn walk(leaving: &[Vec<(usize, usize)>], start: usize, next: &[Vec<usize>], accepts: &[bool]) -> Answer {
    let mut met = vec![vec![false; next.len()]; leaving.len()];
    met[start][0] = true;
    let mut waiting = vec![(start, 0)];
    let mut marks = vec![false; leaving.len()];
    while let Some((recording, place)) = waiting.pop() {
        if accepts[place] {
            marks[recording] = true;
        }
        for (label, to) in &leaving[recording] {
            let after = next[place][*label];
            if !met[*to][after] {
                met[*to][after] = true;
                waiting.push((*to, after));
            }
        }
    }
    let number = marks.iter().filter(|mark| **mark).count();
    Answer { marks, number }
}

/// The list table that is exact on a right link table: (x, list, y) exactly
/// when a path of the list's expression leads from x to y. It may be longer
/// than a lent table may be.
pub fn exact_lists(job: &Job, recordings: usize, links: &[u16]) -> Vec<u16> {
    exact_lists_within(job, recordings, links, usize::MAX).expect("no limit")
}

/// The same, or none if it has more than `most` triples.
pub fn exact_lists_within(job: &Job, recordings: usize, links: &[u16], most: usize) -> Option<Vec<u16>> {
    let leaving = leaving(links, recordings, job.labels.len()).expect("a right table");
    let lists = job.lists.iter().map(|list| Automaton::new(&list.expr));
    let lists: Vec<Automaton> = lists.collect();
    let mut table = Vec::new();
    for from in 0..recordings {
        for (number, list) in lists.iter().enumerate() {
            for to in list_ends(&leaving, from, list) {
                table.extend([from as u16, number as u16, to as u16]);
            }
            if table.len() / 3 > most {
                return None;
            }
        }
    }
    Some(table)
}

fn list_ends(leaving: &[Vec<(usize, usize)>], from: usize, list: &Automaton) -> BTreeSet<usize> {
    let mut met = BTreeSet::from([(from, 0)]);
    let mut waiting = vec![(from, 0)];
    while let Some((recording, position)) = waiting.pop() {
        for (label, to) in &leaving[recording] {
            for follower in list.step(position, *label) {
                if met.insert((*to, follower)) {
                    waiting.push((*to, follower));
                }
            }
        }
    }
    let ended = met.into_iter().filter(|(_, at)| list.ends_at(*at));
    ended.map(|(recording, _)| recording).collect()
}
