//! Merged tables: the same words are accepted, by as few states as can be,
//! numbered by the first words; so two tables are the same exactly if they
//! accept the same words.

use second::explore::Explored;
use second::find::find;
use second::generate::Random;
use second::jobs::{larger, near_limit, small, text};
use second::judge::Rewriting;
use second::keep::keep;
use second::large::large;
use second::merge::merged;
use second::read::{read, Job};
use second::states::States;
use second::table::Table;

fn job(text: &str) -> Job {
    read(text.as_bytes()).unwrap_or_else(|refused| panic!("{refused:?}: {text}"))
}

/// Whether the rows, read one after the other from their first list, name the
/// states for the first time in rising order, and name them all.
fn is_numbered(table: &Table) -> bool {
    let mut known = 1;
    for (state, row) in table.next.iter().enumerate() {
        if state >= known {
            return false;
        }
        for next in row {
            if *next > known {
                return false;
            }
            known = known.max(next + 1);
        }
    }
    known == table.states()
}

/// The shortest accepted word, first in list order.
fn first_word(table: &Table) -> Option<Vec<usize>> {
    let step = |state: &usize, list: usize| table.next[*state][list];
    let all = Explored::new(0, table.lists(), usize::MAX, step).expect("no limit");
    let first = all.values.iter().position(|state| table.accepting[*state])?;
    Some(all.word(first))
}

#[test]
fn random_jobs() {
    let mut random = Random::new(7);
    let (mut fewer, mut the_same, mut many, mut refused) = (0, 0, 0, 0);
    for number in 0..2000 {
        let text = match number % 4 {
            0 => small(&mut random),
            1 => larger(&mut random),
            2 => near_limit(&mut random),
            _ => large(&mut random),
        };
        let job = job(&text);
        let Ok(states) = States::of(&job) else {
            assert_eq!(find(&job).err(), States::of(&job).err(), "{text}");
            refused += 1;
            continue;
        };
        let found = find(&job).expect("refusals are those before merging");
        let table = &found.table;
        assert!(table.accepts_as(&states.table), "{text}");
        let Table { next, accepting } = table.clone();
        assert_eq!(Rewriting { next, accepting }.alike(), None, "{text}");
        assert!(is_numbered(table) && is_numbered(&states.table), "{text}");
        assert_eq!(found.first, first_word(table), "{text}");
        assert_eq!(merged(table), *table, "{text}");
        many += usize::from(table.states() > 64);
        match table.states() < states.table.states() {
            true => fewer += 1,
            false => the_same += 1,
        }
    }
    assert!(fewer >= 500 && the_same >= 100 && many >= 50 && refused >= 50, "{fewer} {the_same} {many} {refused}");
}

/// Kept bytes of jobs with the same list names are equal exactly if the
/// accepted words are.
#[test]
fn same_meaning_same_file() {
    let mut random = Random::new(8);
    let jobs = (0..4000).map(|_| job(&small(&mut random)));
    let two_lists = jobs.filter(|job| job.lists.len() == 2 && States::of(job).is_ok());
    let all: Vec<(Vec<u8>, Table)> = two_lists
        .map(|job| (keep(&job).expect("it is kept").0, States::of(&job).expect("it answers").table))
        .take(600)
        .collect();
    let (mut equal, mut different) = (0, 0);
    for (number, (bytes, table)) in all.iter().enumerate() {
        for (other_bytes, other) in &all[..number] {
            let same = table.accepts_as(other);
            assert_eq!(same, bytes == other_bytes, "{table:?} {other:?}");
            equal += usize::from(same && table != other);
            different += usize::from(!same);
        }
    }
    assert!(equal >= 1000 && different >= 1000, "{equal} {different}");
}

/// One meaning in three ways.
#[test]
fn written_otherwise() {
    let kept = |query: &str| keep(&job(&format!("label a\nquery {query}\nlist l a\n"))).unwrap();
    let (bytes, length) = kept("a.a*");
    assert_eq!(bytes[..length], *b"LRW\x00\x01\x01\x00\x02\x01l\x00\x00\x01\x01\x00\x01");
    for query in ["a*.a", "a|a.a.a*", "a.a?.a*", "(a|a.a)*.a"] {
        assert_eq!(kept(query).0, bytes, "{query}");
    }
    for query in ["a*", "a", "a.a.a*"] {
        assert_ne!(kept(query).0, bytes, "{query}");
    }
}

/// The dead state is one of the table, where a list leads to it and where all
/// words lead to it.
#[test]
fn dead_states_stay() {
    let table = |query: &str, lists: &[&str]| find(&job(&text(&["a", "b"], query, lists))).unwrap().table;
    assert_eq!(
        table("a", &["a"]),
        Table { next: vec![vec![1], vec![2], vec![2]], accepting: vec![false, true, false] }
    );
    assert_eq!(table("a", &["b"]), Table { next: vec![vec![0]], accepting: vec![false] });
    assert_eq!(table("a*", &["b"]), Table { next: vec![vec![1], vec![1]], accepting: vec![true, false] });
}
