//! The cases, in the order of the table.

use crate::graphs::table;
use crate::input::{Case, Input, Operation};
use crate::jobs;
use crate::random::Random;
use crate::random_jobs;
use std::path::Path;

/// All cases; the random jobs are read from the folder that `prepare` filled.
pub fn all(folder: &Path) -> Vec<Case> {
    let mut cases = heaviest();
    cases.extend(random_jobs(folder));
    cases.extend(graphs());
    cases
}

/// Find and Verdict on document 01's heaviest jobs and on that of 4,036 pairs.
fn heaviest() -> Vec<Case> {
    let jobs = [
        ("states-253", "20 a's, lists a, a? (253 states, 22 merged)", jobs::optional(20)),
        ("states-227", "15 a's in a circle, lists a, a? (227 states, 211 merged)", jobs::counter()),
        ("places-1024", "62 a's, lists a, 14 a's (1,024 places)", jobs::places()),
        ("standings-64", "62 a's, list a (64 standings)", jobs::standings()),
        ("standings-33", "(a|b)*.a and four (a|b) (33 standings)", jobs::from_the_end()),
        ("pairs-4036", "4,036 pairs (239 states, 32 merged)", jobs::pairs()),
    ];
    let mut cases = Vec::new();
    for operation in [Operation::Find, Operation::Verdict] {
        for (name, title, job) in &jobs {
            let name = format!("{}-{name}", if operation == Operation::Find { "find" } else { "verdict" });
            let case = Case::new(&name, title, vec![Input::job(operation, job)]);
            cases.push(Case { counted: true, foma: true, ..case });
        }
    }
    cases
}

/// Find and Verdict on random jobs that Verdict answers.
fn random_jobs(folder: &Path) -> Vec<Case> {
    let mut cases = Vec::new();
    for (lists, occurrences) in random_jobs::KINDS {
        let jobs = random_jobs::load(folder, lists, occurrences);
        for operation in [Operation::Find, Operation::Verdict] {
            let kind = if operation == Operation::Find { "find" } else { "verdict" };
            let name = format!("{kind}-random-{lists}-{occurrences}");
            let plural = if lists == 1 { "list" } else { "lists" };
            let title = format!("{} random jobs, {lists} {plural} of {occurrences} occurrences", jobs.len());
            let inputs = jobs.iter().map(|job| Input::job(operation, job)).collect();
            let case = Case::new(&name, &title, inputs);
            cases.push(Case { counted: lists * occurrences == 16, foma: true, ..case });
        }
    }
    cases
}

/// Both answers, from 64 recordings to 4,096 with 16,384 links.
fn graphs() -> Vec<Case> {
    let mut cases = Vec::new();
    for recordings in [64, 256, 1024, 4096] {
        cases.push(links_case("example", "a.(b.a|c)*", &jobs::example(), recordings));
        cases.push(links_case("standings-33", "that of 33 standings", &jobs::from_the_end(), recordings));
    }
    for recordings in [64, 256, 1024, 4096] {
        cases.push(lists_case("example", "a.(b.a|c)*, 3 states", &jobs::example(), 3, recordings));
        cases.push(lists_case("states-253", "that of 253 states, 22 merged", &jobs::optional(20), 2, recordings));
        cases.push(lists_case("states-227", "that of 227 states, 211 merged", &jobs::counter(), 2, recordings));
    }
    cases
}

fn answer(operation: Operation, job: &str, symbols: usize, recordings: usize, links: usize) -> Input {
    let mut random = Random::new((recordings + links) as u64);
    let links = table(&mut random, recordings, links, symbols);
    Input { recordings: recordings as u64, links, ..Input::job(operation, job) }
}

fn labels(job: &str) -> usize {
    job.lines().filter(|line| line.starts_with("label ")).count()
}

fn links_case(name: &str, what: &str, job: &str, recordings: usize) -> Case {
    let links = 4 * recordings;
    let title = format!("{what}, {recordings} recordings, {links} links");
    let input = answer(Operation::Links, job, labels(job), recordings, links);
    let case = Case::new(&format!("links-{name}-{recordings}"), &title, vec![input]);
    Case { counted: recordings == 4096, sqlite: true, rdflib: recordings <= 256, ..case }
}

fn lists_case(name: &str, what: &str, job: &str, lists: usize, recordings: usize) -> Case {
    let links = 4 * recordings;
    let title = format!("{what}, {recordings} recordings, {links} list entries");
    let input = answer(Operation::Lists, job, lists, recordings, links);
    let case = Case::new(&format!("lists-{name}-{recordings}"), &title, vec![input]);
    Case { counted: recordings == 4096, sqlite: true, ..case }
}
