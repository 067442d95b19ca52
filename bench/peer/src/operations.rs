//! The operations on a job text and lent buffers, with all checks in order.
//! Each tells its answer in one number, as the proved operations do.

use crate::job::{read, Job};
use crate::links as from_links;
use crate::lists as from_lists;
use crate::refusal::{refuse, Refusal, Result};
use crate::search;
use crate::standings::{standings, Standings};
use crate::states::{rewriting, Rewriting};
use crate::table::table as indexed;
use crate::verdict as judged;

const TABLE: usize = 4096;
const FLAGS: usize = 256;
const WORD: usize = 256;
const MOST_ALLOWANCE: u64 = 4096;
const MOST_RECORDINGS: u64 = 4096;

fn told(answer: Result<u64>) -> u64 {
    answer.unwrap_or_else(Refusal::packed)
}

fn found(job: &Job) -> Result<(Standings, Rewriting)> {
    let query = standings(job.query(), job.labels)?;
    let rewriting = rewriting(job, &query)?;
    Ok((query, rewriting))
}

pub fn find(job: &[u8], table: &mut [u16], flags: &mut [u8], word: &mut [u8]) -> u64 {
    told(find_in(job, table, flags, word))
}

fn find_in(job: &[u8], table: &mut [u16], flags: &mut [u8], word: &mut [u8]) -> Result<u64> {
    if table.len() < TABLE || flags.len() < FLAGS || word.len() < WORD {
        return refuse(8);
    }
    let job = read(job)?;
    let answer = found(&job);
    word[..WORD].fill(0);
    let (query, rewriting) = answer.inspect_err(|_| {
        table[..TABLE].fill(0);
        flags[..FLAGS].fill(0);
    })?;
    rewriting.write(table, flags);
    let first = rewriting.first(word).map_or(0, |length| length as u64 + 1);
    Ok((query.count as u64) << 32 | (rewriting.count as u64) << 40 | first << 52)
}

pub fn verdict(
    job: &[u8],
    allowance: u64,
    table: &mut [u16],
    flags: &mut [u8],
    path: &mut [u8],
    workspace: &mut [u64],
) -> u64 {
    told(verdict_in(job, allowance, table, flags, path, workspace))
}

fn verdict_in(
    job: &[u8],
    allowance: u64,
    table: &mut [u16],
    flags: &mut [u8],
    path: &mut [u8],
    workspace: &mut [u64],
) -> Result<u64> {
    if allowance == 0 || allowance > MOST_ALLOWANCE {
        return refuse(11);
    }
    let most = allowance as usize;
    if table.len() < TABLE || flags.len() < FLAGS || path.len() < most || workspace.len() < 18 * most {
        return refuse(8);
    }
    let job = read(job)?;
    path[..most].fill(0);
    workspace[..18 * most].fill(0);
    let answer = found(&job).and_then(|(query, rewriting)| {
        let told = judged::verdict(&job, &query, &rewriting, most, path)?;
        Ok((rewriting, told))
    });
    let (rewriting, told) = answer.inspect_err(|_| {
        table[..TABLE].fill(0);
        flags[..FLAGS].fill(0);
    })?;
    rewriting.write(table, flags);
    Ok((told.pairs as u64) << 32 | told.missed.map_or(0, |length| length as u64 + 1) << 48)
}

pub fn links(
    job: &[u8],
    recordings: u64,
    chosen: u64,
    table: &[u16],
    start: u64,
    marks: &mut [u8],
    workspace: &mut [u64],
) -> u64 {
    told(links_in(job, recordings, chosen, table, start, marks, workspace))
}

fn links_in(
    job: &[u8],
    recordings: u64,
    chosen: u64,
    table: &[u16],
    start: u64,
    marks: &mut [u8],
    workspace: &mut [u64],
) -> Result<u64> {
    let count = lent(recordings, 1, marks, workspace)?;
    let job = read(job)?;
    let Some(automaton) = usize::try_from(chosen).ok().and_then(|chosen| job.automata.get(chosen)) else {
        return refuse(17);
    };
    let table = indexed(table, count, job.labels)?;
    if start >= recordings {
        return refuse(16);
    }
    let (marks, words) = (&mut marks[..count], &mut workspace[..count]);
    marks.fill(0);
    words.fill(0);
    let found = standings(automaton, job.labels)?;
    let ones = search::mark(&from_links::machine(&found), &table, start as usize, marks, words);
    words.fill(0);
    Ok((ones as u64) << 32)
}

pub fn lists(job: &[u8], recordings: u64, table: &[u16], start: u64, marks: &mut [u8], workspace: &mut [u64]) -> u64 {
    told(lists_in(job, recordings, table, start, marks, workspace))
}

fn lists_in(
    job: &[u8],
    recordings: u64,
    table: &[u16],
    start: u64,
    marks: &mut [u8],
    workspace: &mut [u64],
) -> Result<u64> {
    let count = lent(recordings, 4, marks, workspace)?;
    let job = read(job)?;
    let table = indexed(table, count, job.lists().len())?;
    if start >= recordings {
        return refuse(16);
    }
    let (marks, words) = (&mut marks[..count], &mut workspace[..4 * count]);
    marks.fill(0);
    words.fill(0);
    let (_, rewriting) = found(&job)?;
    let ones = search::mark(&from_lists::machine(&rewriting), &table, start as usize, marks, words);
    words.fill(0);
    Ok((ones as u64) << 32)
}

/// How many recordings there are, after 14 and 8.
fn lent(recordings: u64, words: u64, marks: &[u8], workspace: &[u64]) -> Result<usize> {
    if recordings == 0 || recordings > MOST_RECORDINGS {
        return refuse(14);
    }
    if (marks.len() as u64) < recordings || (workspace.len() as u64) < words * recordings {
        return refuse(8);
    }
    Ok(recordings as usize)
}

/// The number of labels, the next standings and the accepting ones of a query,
/// for peers that take an automaton.
pub fn query_automaton(job: &[u8]) -> Option<(usize, Vec<u8>, u64)> {
    let job = read(job).ok()?;
    let query = standings(job.query(), job.labels).ok()?;
    Some((query.labels, query.next, query.accepting))
}
