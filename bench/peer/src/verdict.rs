//! The verdict: all pairs of a query standing and a set of cover places, by
//! exploration over the labels.

use crate::cover::{Columns, Cover, Rows};
use crate::job::Job;
use crate::refusal::{refuse, Result};
use crate::seen::Seen;
use crate::standings::Standings;
use crate::states::Rewriting;

pub struct Verdict {
    pub pairs: usize,
    /// The length of the missed path.
    pub missed: Option<usize>,
}

const MOST_PLACES: usize = 1024;

/// Explores in the layout with fewer words; 12 where there are too many
/// places, 13 where there are more pairs than allowed.
pub fn verdict(job: &Job, query: &Standings, found: &Rewriting, allowance: usize, path: &mut [u8]) -> Result<Verdict> {
    let width = 1 + job.lists().iter().map(|list| list.size).sum::<usize>();
    let states = found.count;
    if states * width > MOST_PLACES {
        return refuse(12);
    }
    match layout(states, width) {
        Layout::Rows(1) => explore(Rows::<1>::new(job, found), query, allowance, path),
        Layout::Rows(2) => explore(Rows::<2>::new(job, found), query, allowance, path),
        Layout::Rows(3..=4) => explore(Rows::<4>::new(job, found), query, allowance, path),
        Layout::Rows(_) => explore(Rows::<16>::new(job, found), query, allowance, path),
        Layout::Columns(1) => explore(Columns::<1>::new(job, found), query, allowance, path),
        Layout::Columns(2) => explore(Columns::<2>::new(job, found), query, allowance, path),
        Layout::Columns(3) => explore(Columns::<3>::new(job, found), query, allowance, path),
        Layout::Columns(_) => explore(Columns::<4>::new(job, found), query, allowance, path),
    }
}

/// A layout, and the words of each row or column.
enum Layout {
    Rows(usize),
    Columns(usize),
}

/// The layout with fewer words.
fn layout(states: usize, width: usize) -> Layout {
    let (row, column) = (width.div_ceil(64), states.div_ceil(64));
    if states * row < width * column {
        Layout::Rows(row)
    } else {
        Layout::Columns(column)
    }
}

/// How a pair was first reached: from which one, and by which label.
struct Link {
    from: u16,
    label: u8,
}

fn explore(mut cover: impl Cover, query: &Standings, allowance: usize, path: &mut [u8]) -> Result<Verdict> {
    let mut seen = Seen::new(1 + cover.words());
    let mut links = vec![Link { from: 0, label: 0 }];
    let mut key = vec![0; 1 + cover.words()];
    cover.start(&mut key[1..]);
    if seen.add(&key, allowance).is_none() {
        return refuse(13);
    }
    let mut missed = misses(&cover, query, &key).then_some(0);
    let mut pair = 0;
    while pair < seen.count {
        let from = seen.key(pair);
        let standing = from[0] as usize;
        cover.follow(&from[1..]);
        for label in 0..query.labels {
            key[0] = query.next[query.labels * standing + label] as u64;
            cover.step(label, &mut key[1..]);
            let Some(new) = seen.add(&key, allowance) else { return refuse(13) };
            if new {
                links.push(Link { from: pair as u16, label: label as u8 });
                if missed.is_none() && misses(&cover, query, &key) {
                    missed = Some(seen.count - 1);
                }
            }
        }
        pair += 1;
    }
    Ok(Verdict { pairs: seen.count, missed: missed.map(|pair| spell(&links, pair, path)) })
}

/// Whether the paths of the pair are query paths that are not yielded.
#[inline(always)]
fn misses(cover: &impl Cover, query: &Standings, key: &[u64]) -> bool {
    query.accepting >> key[0] & 1 == 1 && !cover.yields(&key[1..])
}

/// The first path to the pair, put into the lent path; its length.
fn spell(links: &[Link], pair: usize, path: &mut [u8]) -> usize {
    let (mut pair, mut length) = (pair, 0);
    while pair != 0 {
        path[length] = links[pair].label;
        (pair, length) = (links[pair].from as usize, length + 1);
    }
    path[..length].reverse();
    length
}
