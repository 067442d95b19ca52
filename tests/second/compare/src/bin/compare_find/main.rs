//! Compares Find of libserver.a with the second implementation: the returned
//! number, the table, the flags and the first word, all of them whole and
//! filled with a pattern first. Options: `--count N`, how many random jobs,
//! `--seed S`, and `--judged FILE`, to which small jobs are written with what
//! the library found, for a judge.

mod cases;
mod lent;
mod tally;

use lent::{Left, ENOUGH};
use second::find_jobs::{jobs, strata};
use second::generate::{random_text, Random};
use second::options::Options;
use second::read::read;
use std::fmt::Write;
use tally::{Tally, LEAST_JOBS};

/// The texts of any kind beside the random jobs.
const TEXTS: usize = 4_000;
/// How many small jobs the judge gets.
const JUDGED: usize = 300;

fn main() {
    let options = Options::read(&["--count", "--seed", "--judged"]);
    let (count, seed) = options.count_and_seed(LEAST_JOBS);
    println!("compare_find: seed {seed}, {count} random jobs");
    let mut tally = Tally::default();
    stated(&mut tally);
    texts(seed, &mut tally);
    let judged = random_jobs(seed, count, &mut tally);
    print!("{tally}");
    tally.assert_floors();
    if let Some(file) = options.text("--judged") {
        std::fs::write(file, judged).expect("the judge's file can be written");
    }
    println!("compare_find: {} inputs, 0 differences", tally.inputs);
}

/// The cases of which something is stated, with every shape of buffers.
fn stated(tally: &mut Tally) {
    let all = cases::document().into_iter().chain(cases::alike()).chain(cases::pairs());
    for case in all {
        for place in 0..ENOUGH.len() {
            let left = tally.compare_at(&case.text, place);
            let name = &case.name;
            assert_eq!((left.refusal(), left.line()), case.refused, "{name}");
            if let Some(standings) = case.standings {
                assert_eq!(left.standings(), standings, "{name}");
            }
            if let Some(states) = case.states {
                assert_eq!(left.states(), states, "{name}");
            }
            if let Some(first) = &case.first {
                assert_eq!(left.first(), first.as_deref(), "{name}");
            }
            for (state, (flag, nexts)) in case.rows.iter().flatten().enumerate() {
                assert_eq!(left.row(state, nexts.len()), (*flag, nexts.as_slice()), "{name}");
            }
        }
    }
    println!("{} cases of document 01, {} pairs of refusals", cases::document().len(), cases::pairs().len());
}

/// Texts of any kind, most of them refused: by hand, then by chance.
fn texts(seed: u64, tally: &mut Tally) {
    for case in second::cases::all() {
        let left = tally.compare(&case.text);
        if case.number > 0 {
            let told = (left.refusal(), left.line());
            assert_eq!(told, (case.number, case.line), "{}", case.why);
        }
    }
    let mut random = Random::new(seed);
    for _ in 0..TEXTS {
        tally.compare(&random_text(&mut random).bytes);
    }
}

/// Random jobs; gives the small ones, with what was found, as the judge reads
/// them.
fn random_jobs(seed: u64, count: usize, tally: &mut Tally) -> String {
    let (mut judged, mut small) = (String::new(), 0);
    let mut met = std::collections::BTreeMap::new();
    for sample in jobs(seed, count) {
        let text = sample.text.as_bytes();
        let left = tally.compare(text);
        assert!([0, 9, 10].contains(&left.refusal()), "{}", sample.text);
        tally.jobs += 1;
        met.entry((sample.stratum, left.refusal())).and_modify(|n| *n += 1).or_insert(1);
        if left.refusal() == 0 {
            tally.count(text, &left);
            if sample.stratum == "small" && small < JUDGED {
                small += 1;
                judged += &sample.text;
                judged += &told(&left, read(text).map_or(0, |job| job.lists.len()));
            }
        }
    }
    for stratum in strata() {
        let of = |number: u8| met.get(&(stratum, number)).copied().unwrap_or(0);
        println!("{stratum}: answered {}, refused 9 {}, refused 10 {}", of(0), of(9), of(10));
    }
    judged
}

/// What the library found, in lines: the counts, the first word, and a row for
/// each state with its flag and next states.
fn told(left: &Left, lists: usize) -> String {
    let mut lines = format!("told {} {}\n", left.standings(), left.states());
    match left.first() {
        None => lines += "empty\n",
        Some(word) => {
            lines += "first";
            word.iter().for_each(|list| write!(lines, " {list}").expect("a string"));
            lines += "\n";
        }
    }
    for state in 0..left.states() {
        let (flag, nexts) = left.row(state, lists);
        write!(lines, "row {flag}").expect("a string");
        nexts.iter().for_each(|next| write!(lines, " {next}").expect("a string"));
        lines += "\n";
    }
    lines
}
