//! A seeded generator of right jobs for the operations that need standings and
//! states: some in every stratum, so that both sides of each limit are met, and
//! tables that merging leaves large.

use crate::generate::Random;
use crate::jobs::{expression, from_the_end, job, lists, many, small, text, Size, LABELS};
use crate::large::{chain, counter, slack, subsets};

pub struct Sample {
    pub stratum: &'static str,
    pub text: String,
}

type Make = fn(&mut Random) -> String;

/// The strata, with how many jobs of each there are in a round.
const STRATA: [(&str, usize, Make); 10] = [
    ("small", 10, small),
    ("larger", 6, larger),
    ("long", 2, long),
    ("many standings", 2, many_standings),
    ("many states", 2, many_states),
    ("sequences", 2, sequences),
    ("slack", 1, slack),
    ("counters", 2, counter),
    ("subsets", 1, subsets),
    ("chains", 1, chain),
];

/// `count` jobs from `seed`.
pub fn jobs(seed: u64, count: usize) -> impl Iterator<Item = Sample> {
    let mut random = Random::new(seed);
    let round: Vec<_> = STRATA.iter().flat_map(|(stratum, times, make)| vec![(*stratum, *make); *times]).collect();
    (0..count).map(move |number| {
        let (stratum, make) = round[number % round.len()];
        let text = make(&mut random);
        Sample { stratum, text }
    })
}

/// The names of the strata.
pub fn strata() -> impl Iterator<Item = &'static str> {
    STRATA.iter().map(|(stratum, _, _)| *stratum)
}

fn larger(random: &mut Random) -> String {
    let size = Size { labels: 8, lists: 16, list: 6, query: 12 };
    job(random, &size)
}

fn long(random: &mut Random) -> String {
    let size = Size { labels: 4, lists: 4, list: 12, query: 50 };
    job(random, &size)
}

/// `count` labels in sequence, a few of them optional.
fn sequence(random: &mut Random, labels: &[&str], count: usize) -> String {
    let optional = if random.one_in(2) { 4 } else { usize::MAX };
    let factors: Vec<String> = (0..count)
        .map(|_| {
            let label = random.pick(labels);
            let mark = if random.one_in(optional) { "?" } else { "" };
            format!("{label}{mark}")
        })
        .collect();
    factors.join(".")
}

/// Queries near and over 64 standings.
fn many_standings(random: &mut Random) -> String {
    let labels = &LABELS[..random.between(1, 3)];
    let query = match random.below(4) {
        0 => {
            let count = random.between(58, 63);
            sequence(random, labels, count)
        }
        1 => {
            let count = random.between(40, 60);
            format!("({})*", sequence(random, labels, count))
        }
        2 => from_the_end(random.between(3, 7)),
        _ => {
            let size = random.between(1, 3);
            let more = expression(random, labels, size);
            let end = from_the_end(random.between(3, 5));
            format!("{more}.({end}|{more})")
        }
    };
    let labels = &LABELS[..labels.len().max(2)];
    let lists = lists(random, labels, 3, 3);
    text(labels, &query, &lists)
}

/// Queries of few standings with lists that mix them into many states.
fn many_states(random: &mut Random) -> String {
    let labels = &LABELS[..2];
    let query = match random.below(3) {
        0 => from_the_end(random.between(2, 4)),
        1 => {
            let count = random.between(6, 24);
            sequence(random, labels, count)
        }
        _ => vec!["(a|b)"; random.between(6, 24)].join("."),
    };
    let mut all = vec!["a?".to_string(), "b".to_string(), "a|b".to_string()];
    all.extend(lists(random, labels, 3, 3));
    all.swap_remove(random.below(3));
    text(labels, &query, &all)
}

/// One label in sequence, with lists that lag behind: a state is a run of
/// neighbouring standings.
fn sequences(random: &mut Random) -> String {
    let query = many(random.between(8, 40));
    let mut lists = vec!["a?".to_string()];
    for _ in 0..random.between(1, 3) {
        let count = random.between(1, 3);
        lists.push(sequence(random, &["a"], count));
    }
    text(&["a"], &query, &lists)
}
