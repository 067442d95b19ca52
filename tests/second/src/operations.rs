//! The operations as they are called: on a job text and lent buffers, with
//! all checks in the listed order. A buffer may be longer than asked; what
//! lies beyond the named part never changes. Refusals 9, 10, 12 and 13 set the
//! named parts to zero, every other refusal changes nothing.

use crate::answer::{from_links, from_lists, Answer, MOST_RECORDINGS};
use crate::find::Found;
use crate::keep::KEPT_BYTES;
use crate::read::{read, Job, Refusal};
use crate::verdict::Verdict;

pub const TABLE_NUMBERS: usize = 4096;
pub const TABLE_ROW: usize = 16;
pub const FLAG_BYTES: usize = 256;
/// The named part of the word that is lent to Find: no first word is longer,
/// for there are at most 256 states.
pub const WORD_BYTES: usize = 256;
pub const MOST_ALLOWANCE: usize = 4096;
pub const WORDS_FOR_A_PAIR: usize = 18;
pub const WORDS_FOR_A_RECORDING_OF_LINKS: usize = 1;
pub const WORDS_FOR_A_RECORDING_OF_LISTS: usize = 4;

#[derive(Clone, Copy, Debug, PartialEq, Eq)]
pub struct FindTold {
    pub standings: usize,
    pub states: usize,
    /// The length of the first accepted word; none if no word is accepted.
    pub first: Option<usize>,
}

#[derive(Clone, Copy, Debug, PartialEq, Eq)]
pub struct VerdictTold {
    /// The length of the missed path; none if complete.
    pub missed: Option<usize>,
    pub pairs: usize,
}

fn refusal(number: u8) -> Refusal {
    Refusal { number, line: 0 }
}

/// Find. The first accepted word stands in `word` as list numbers, with zeros
/// behind it.
pub fn find(text: &[u8], table: &mut [u16], flags: &mut [u8], word: &mut [u8]) -> Result<FindTold, Refusal> {
    if table.len() < TABLE_NUMBERS || flags.len() < FLAG_BYTES || word.len() < WORD_BYTES {
        return Err(refusal(8));
    }
    let job = read(text)?;

    table[..TABLE_NUMBERS].fill(0);
    flags[..FLAG_BYTES].fill(0);
    word[..WORD_BYTES].fill(0);
    let found = crate::find::find(&job).map_err(refusal)?;
    write_found(&found, table, flags);
    for (place, list) in found.first.iter().flatten().enumerate() {
        word[place] = *list as u8;
    }
    let first = found.first.map(|word| word.len());
    Ok(FindTold { standings: found.standings, states: found.table.states(), first })
}

/// Writes Find's table and flags over zeros.
fn write_found(found: &Found, table: &mut [u16], flags: &mut [u8]) {
    for (state, row) in found.table.next.iter().enumerate() {
        for (list, next) in row.iter().enumerate() {
            table[TABLE_ROW * state + list] = *next as u16;
        }
        flags[state] = u8::from(found.table.accepting[state]);
    }
}

pub fn verdict(
    text: &[u8],
    allowance: usize,
    table: &mut [u16],
    flags: &mut [u8],
    path: &mut [u8],
    workspace: &mut [u64],
) -> Result<VerdictTold, Refusal> {
    let decide = crate::verdict::verdict;
    verdict_by(decide, text, allowance, table, flags, path, workspace)
}

/// As `verdict`, on a job's verdict that `decide` tells by the allowance.
pub fn verdict_by(
    decide: impl Fn(&Job, usize) -> Result<Verdict, u8>,
    text: &[u8],
    allowance: usize,
    table: &mut [u16],
    flags: &mut [u8],
    path: &mut [u8],
    workspace: &mut [u64],
) -> Result<VerdictTold, Refusal> {
    if allowance == 0 || allowance > MOST_ALLOWANCE {
        return Err(refusal(11));
    }
    let words = WORDS_FOR_A_PAIR * allowance;
    if table.len() < TABLE_NUMBERS || flags.len() < FLAG_BYTES || path.len() < allowance || workspace.len() < words {
        return Err(refusal(8));
    }
    let job = read(text)?;

    table[..TABLE_NUMBERS].fill(0);
    flags[..FLAG_BYTES].fill(0);
    path[..allowance].fill(0);
    workspace[..words].fill(0);
    let verdict = decide(&job, allowance).map_err(refusal)?;
    write_found(&verdict.found, table, flags);
    for (place, label) in verdict.missed.iter().flatten().enumerate() {
        path[place] = *label as u8;
    }
    Ok(VerdictTold { missed: verdict.missed.map(|path| path.len()), pairs: verdict.pairs })
}

/// Answer from links. Tells the number of ones.
pub fn links(
    text: &[u8],
    recordings: usize,
    table: &[u16],
    chosen: usize,
    start: usize,
    marks: &mut [u8],
    workspace: &mut [u64],
) -> Result<usize, Refusal> {
    let words = WORDS_FOR_A_RECORDING_OF_LINKS;
    check_answer_buffers(recordings, marks, workspace, words)?;
    let job = read(text)?;
    let answer = from_links(&job, recordings, table, chosen, start);
    write_answer(answer, recordings, marks, workspace, words)
}

/// Answer from lists. Tells the number of ones.
pub fn lists(
    text: &[u8],
    recordings: usize,
    table: &[u16],
    start: usize,
    marks: &mut [u8],
    workspace: &mut [u64],
) -> Result<usize, Refusal> {
    let words = WORDS_FOR_A_RECORDING_OF_LISTS;
    check_answer_buffers(recordings, marks, workspace, words)?;
    let job = read(text)?;
    let answer = from_lists(&job, recordings, table, start);
    write_answer(answer, recordings, marks, workspace, words)
}

fn check_answer_buffers(recordings: usize, marks: &[u8], workspace: &[u64], words: usize) -> Result<(), Refusal> {
    if recordings == 0 || recordings > MOST_RECORDINGS {
        return Err(refusal(14));
    }
    if marks.len() < recordings || workspace.len() < words * recordings {
        return Err(refusal(8));
    }
    Ok(())
}

fn write_answer(
    answer: Result<Answer, u8>,
    recordings: usize,
    marks: &mut [u8],
    workspace: &mut [u64],
    words: usize,
) -> Result<usize, Refusal> {
    if let Err(15..=17) = answer {
        return answer.map(|_| 0).map_err(refusal);
    }
    marks[..recordings].fill(0);
    workspace[..words * recordings].fill(0);
    let answer = answer.map_err(refusal)?;
    for (recording, mark) in answer.marks.iter().enumerate() {
        marks[recording] = u8::from(*mark);
    }
    Ok(answer.number)
}

/// Keep. Tells the length without the zeros.
pub fn keep(text: &[u8], output: &mut [u8]) -> Result<usize, Refusal> {
    if output.len() < KEPT_BYTES {
        return Err(refusal(8));
    }
    let job = read(text)?;

    output[..KEPT_BYTES].fill(0);
    let (bytes, length) = crate::keep::keep(&job).map_err(refusal)?;
    output[..KEPT_BYTES].copy_from_slice(&bytes);
    Ok(length)
}
