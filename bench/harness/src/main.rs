//! Runs every case with the proved operations and with the tuned peer.

mod cases;
mod clock;
mod compare;
mod count;
mod graphs;
mod growth;
mod input;
mod jobs;
mod lent;
mod moves;
mod ours;
mod random;
mod random_jobs;
mod time;
mod tuned;
mod write;

use input::Case;
use std::path::Path;

const USAGE: &str = "harness prepare|times|count FOLDER [CASE|growth]";

fn main() {
    let words: Vec<String> = std::env::args().skip(1).collect();
    let folder = Path::new(words.get(1).expect(USAGE));
    match words[0].as_str() {
        "prepare" => prepare(folder),
        "times" => times(&chosen(folder, words.get(2))),
        "count" => count::count(&chosen(folder, words.get(2))),
        _ => panic!("{USAGE}"),
    }
}

/// The growing cases, the case of that name, or all but the growing ones.
fn chosen(folder: &Path, name: Option<&String>) -> Vec<Case> {
    if name.is_some_and(|name| name == "growth") {
        return growth::all();
    }
    let mut cases = cases::all(folder);
    if let Some(name) = name {
        cases.retain(|case| case.name == *name);
        cases.iter_mut().for_each(|case| case.counted = true);
    }
    cases
}

/// Compares ours with the peer on every case, and writes what the other peers
/// need.
fn prepare(folder: &Path) {
    random_jobs::draw(folder);
    for case in growth::all() {
        compare::compare(&case);
    }
    for case in cases::all(folder) {
        let answers = compare::compare(&case);
        write::write(folder, &case, &answers);
        println!("{}\t{}\t{}\t{}", case.name, case.operation().words(), case.title, case.peers());
    }
}

fn times(cases: &[Case]) {
    for case in cases {
        let ([ours, peer], runs) = time::time(case);
        println!("{}\tours\t{ours:.9}\t{runs}", case.name);
        println!("{}\tpeer\t{peer:.9}\t{runs}", case.name);
    }
}
