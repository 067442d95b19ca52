//! One input: a job text, with all numbers and tables that an operation takes
//! beside it.

use second::answer::{exact_lists, MOST_LINKS, MOST_RECORDINGS};
use second::generate::{random_text, Random};
use second::jobs::{larger, near_limit, small};
use second::large::large;
use second::operations::MOST_ALLOWANCE;
use second::read::{read, Job};
use std::collections::BTreeSet;

pub struct Input {
    pub family: &'static str,
    pub job: Vec<u8>,
    pub allowance: usize,
    pub recordings: usize,
    pub links: Vec<u16>,
    pub lists: Vec<u16>,
    /// The chosen expression: 0 the query, 1 upward a list.
    pub chosen: usize,
    pub start: usize,
    /// By how much each lent buffer is longer than asked; −1 is too short.
    pub spare: [isize; 4],
}

impl Input {
    pub fn new(seed: u64, number: u64) -> Input {
        let mut random = Random::new(seed.wrapping_mul(0x9e37_79b9_7f4a_7c15) ^ number);
        let random = &mut random;
        let (family, job) = job_text(random);
        let read = read(&job).ok();
        let labels = read.as_ref().map_or(3, |job| job.labels.len());
        let names = read.as_ref().map_or(3, |job| job.lists.len());
        let recordings = recordings(random);
        let links = table(random, recordings, labels);
        let lists = match &read {
            Some(job) if random.one_in(2) => exact(job, recordings, &links),
            _ => table(random, recordings, names),
        };
        Input {
            family,
            job,
            allowance: allowance(random),
            recordings,
            links,
            lists,
            chosen: chosen(random, names),
            start: start(random, recordings),
            spare: [(); 4].map(|()| spare(random)),
        }
    }
}

fn job_text(random: &mut Random) -> (&'static str, Vec<u8>) {
    match random.below(32) {
        0..=17 => ("small", small(random).into_bytes()),
        18..=21 => ("larger", larger(random).into_bytes()),
        22 => ("near a limit", near_limit(random).into_bytes()),
        23 => ("states that stay many", large(random).into_bytes()),
        _ => {
            let text = random_text(random);
            (text.family, text.bytes)
        }
    }
}

/// Numbers that no operation takes, some of them in range once cut to 32 or
/// 16 bits.
const TOO_LARGE: [usize; 4] = [5000, (1 << 16) + 2, (1 << 32) + 2, usize::MAX];

fn allowance(random: &mut Random) -> usize {
    match random.below(64) {
        0 => 0,
        1 => MOST_ALLOWANCE + 1,
        2 => *random.pick(&TOO_LARGE),
        3 => MOST_ALLOWANCE,
        4..=11 => random.between(1, 1000),
        12..=31 => random.between(1, 20),
        _ => 128,
    }
}

fn recordings(random: &mut Random) -> usize {
    match random.below(64) {
        0 => 0,
        1 => MOST_RECORDINGS + 1,
        2 => *random.pick(&TOO_LARGE),
        3 if random.one_in(16) => MOST_RECORDINGS,
        4..=7 => random.between(1, 200),
        _ => random.between(1, 8),
    }
}

fn chosen(random: &mut Random, lists: usize) -> usize {
    match random.below(32) {
        0 => lists + 1,
        1 => *random.pick(&TOO_LARGE),
        2..=11 => random.between(0, lists),
        _ => 0,
    }
}

fn start(random: &mut Random, recordings: usize) -> usize {
    match random.below(32) {
        0 => recordings,
        1 => *random.pick(&TOO_LARGE),
        _ => random.below(recordings.max(1)),
    }
}

fn spare(random: &mut Random) -> isize {
    match random.below(96) {
        0 => -1,
        1..=16 => random.between(1, 9) as isize,
        _ => 0,
    }
}

/// A link or list table, one in sixteen with a fault.
fn table(random: &mut Random, recordings: usize, labels: usize) -> Vec<u16> {
    let recordings = recordings.clamp(1, MOST_RECORDINGS);
    let mut links = BTreeSet::new();
    if labels > 0 {
        let most = if random.one_in(2000) { MOST_LINKS + 2 } else { 3 * recordings.min(200) };
        for _ in 0..random.between(most / 4, most) {
            let (from, to) = (random.below(recordings), random.below(recordings));
            links.insert([from, random.below(labels), to].map(|number| number as u16));
        }
    }
    let mut table = links.into_iter().flatten().collect();
    if random.one_in(16) {
        break_table(random, &mut table, recordings, labels);
    }
    table
}

fn break_table(random: &mut Random, table: &mut Vec<u16>, recordings: usize, labels: usize) {
    let links = table.len() / 3;
    if links < 2 {
        table.push(random.below(3) as u16);
        return;
    }
    let link = 3 * random.below(links - 1);
    match random.below(6) {
        0 => table.truncate(link + 1),
        1 => table.push(0),
        2 => table[link + 1] = labels as u16,
        3 => table[link + random.below(2) * 2] = recordings as u16,
        4 => table.copy_within(link..link + 3, link + 3),
        _ => {
            let (one, two) = table.split_at_mut(link + 3);
            one[link..].swap_with_slice(&mut two[..3]);
        }
    }
}

/// The list table that is exact on the links, where those are a right table.
fn exact(job: &Job, recordings: usize, links: &[u16]) -> Vec<u16> {
    let right =
        (1..=MOST_RECORDINGS).contains(&recordings) && second::answer::is_table(links, recordings, job.labels.len());
    if right && recordings <= 40 {
        exact_lists(job, recordings, links)
    } else {
        Vec::new()
    }
}

impl std::fmt::Display for Input {
    fn fmt(&self, out: &mut std::fmt::Formatter) -> std::fmt::Result {
        writeln!(out, "job: {}", self.job.escape_ascii())?;
        writeln!(out, "allowance {}, spare {:?}", self.allowance, self.spare)?;
        writeln!(out, "recordings {}, chosen {}, start {}", self.recordings, self.chosen, self.start)?;
        writeln!(out, "links {:?}", self.links)?;
        write!(out, "lists {:?}", self.lists)
    }
}
