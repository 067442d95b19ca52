//! The scope document's jobs on each side of a limit, and its printed form. The
//! document's counts of states are those before merging.

use second::answer::{from_links, from_lists};
use second::cases::EXAMPLE;
use second::counts::{all_standings, all_states};
use second::find::find;
use second::jobs::many;
use second::keep::keep;
use second::print::printed;
use second::read::{read, Job, Refusal};
use second::states::States;
use second::table::Table;
use second::verdict::verdict;

const ALLOWANCE: usize = 4096;

/// A job of letters: the `label` lines have those used and no others, in the
/// alphabet's order.
fn text(query: &str, lists: &[&str]) -> String {
    let used = |letter: &char| query.contains(*letter) || lists.iter().any(|l| l.contains(*letter));
    let mut text = String::new();
    for letter in ('a'..='z').filter(used) {
        text += &format!("label {letter}\n");
    }
    text += &format!("query {query}\n");
    for (number, list) in lists.iter().enumerate() {
        text += &format!("list e{number} {list}\n");
    }
    text
}

fn job(query: &str, lists: &[&str]) -> Job {
    read(text(query, lists).as_bytes()).expect("a right job")
}

/// The number of states before merging.
fn states(job: &Job) -> usize {
    States::of(job).expect("it answers").table.states()
}

fn example() -> Job {
    read(EXAMPLE.as_bytes()).expect("a right job")
}

#[test]
fn p1() {
    let verdict_11 = verdict(&example(), 11).expect("it answers");
    assert_eq!(verdict_11.missed, Some(vec![0, 2]));
    assert_eq!(verdict_11.pairs, 11);
    assert_eq!(verdict(&example(), 10), Err(13));
    assert_eq!(verdict(&example(), 12), Ok(verdict_11.clone()));
    assert_eq!(verdict(&example(), ALLOWANCE), Ok(verdict_11));
}

#[test]
fn p2() {
    let job = job("a.(b.a|c)*", &["a", "a.c*.b", "c"]);
    let found = find(&job).unwrap();
    assert_eq!(found.standings, 6);
    assert_eq!(states(&job), 6);
    assert_eq!(found.table.next, [[1, 0, 2], [2, 2, 1], [2, 2, 2]]);
    assert_eq!(found.table.accepting, [false, true, false]);
    assert_eq!(found.first, Some(vec![0]));
    let verdict = verdict(&job, ALLOWANCE).unwrap();
    assert_eq!((verdict.missed, verdict.pairs), (None, 14));
    // The rewriting of document 001: any number of the second list, the first
    // list, any number of the third.
    for word in words(3, 6) {
        let mut rest = word.as_slice();
        while let [1, after @ ..] = rest {
            rest = after;
        }
        let right = rest.first() == Some(&0) && rest[1..].iter().all(|list| *list == 2);
        assert_eq!(found.table.accepts(&word), right, "{word:?}");
    }
}

/// All words of at most `most` of the numbers below `names`.
fn words(names: usize, most: usize) -> Vec<Vec<usize>> {
    let mut all: Vec<Vec<usize>> = vec![Vec::new()];
    let mut start = 0;
    for _ in 0..most {
        let end = all.len();
        for before in start..end {
            for name in 0..names {
                let mut word = all[before].clone();
                word.push(name);
                all.push(word);
            }
        }
        start = end;
    }
    all
}

#[test]
fn p3() {
    let job = job("a.(b.a|c)*", &["a", "a.c*.b"]);
    assert_eq!(states(&job), 5);
    assert_eq!(find(&job).unwrap().table.states(), 3);
    let verdict = verdict(&job, ALLOWANCE).unwrap();
    assert_eq!((verdict.missed, verdict.pairs), (Some(vec![0, 2]), 12));
}

#[test]
fn p4() {
    let job = job("a*", &["a*"]);
    let found = find(&job).unwrap();
    assert_eq!(States::of(&job).unwrap().table.accepting, [true, true]);
    assert_eq!(found.table, Table { next: vec![vec![0]], accepting: vec![true] });
    assert_eq!(found.first, Some(vec![]));
    assert_eq!(verdict(&job, ALLOWANCE).unwrap().missed, None);
}

#[test]
fn p5() {
    let job = job("a", &["a*"]);
    let found = find(&job).unwrap();
    assert_eq!(found.table, Table { next: vec![vec![0]], accepting: vec![false] });
    assert_eq!(found.first, None);
    assert_eq!(verdict(&job, ALLOWANCE).unwrap().missed, Some(vec![0]));
}

#[test]
fn p6() {
    let job = job("a*", &[]);
    let found = find(&job).unwrap();
    assert_eq!(states(&job), 1);
    assert_eq!(found.table, Table { next: vec![vec![]], accepting: vec![true] });
    assert_eq!(found.first, Some(vec![]));
    assert_eq!(verdict(&job, ALLOWANCE).unwrap().missed, Some(vec![0]));
}

#[test]
fn counts_beyond_the_limits() {
    assert_eq!(all_standings(&job(&many(62), &[])), 64);
    assert_eq!(all_standings(&job(&many(63), &[])), 65);
    let query = |count: usize| format!("(a|b)*.a{}", ".(a|b)".repeat(count));
    assert_eq!(all_standings(&job(&query(4), &[])), 33);
    assert_eq!(all_standings(&job(&query(5), &[])), 65);
    assert_eq!(all_states(&job(&many(20), &["a", "a?"])), 253);
    assert_eq!(all_states(&job(&many(21), &["a", "a?"])), 276);
}

#[test]
fn sixty_two_to_sixty_four() {
    assert_eq!(find(&job(&many(62), &[])).unwrap().standings, 64);
    assert_eq!(find(&job(&many(63), &[])), Err(9));
    assert_eq!(verdict(&job(&many(63), &[]), ALLOWANCE), Err(9));
    let refused = read(text(&many(64), &[]).as_bytes());
    assert_eq!(refused, Err(Refusal { number: 7, line: 2 }));
}

#[test]
fn standings_of_a_place_from_the_end() {
    let query = |count: usize| format!("(a|b)*.a{}", ".(a|b)".repeat(count));
    assert_eq!(find(&job(&query(4), &[])).unwrap().standings, 33);
    assert_eq!(find(&job(&query(5), &[])), Err(9));
}

#[test]
fn p7() {
    let job = job(&many(3), &["a", "a?"]);
    let found = find(&job).unwrap();
    assert_eq!(found.standings, 5);
    assert_eq!(states(&job), 15);
    assert_eq!(found.table.states(), 5);
}

/// A state of n a's with these lists is a run of neighbouring standings out of
/// n + 2. Merged, only the runs of one standing that leads on, n + 1 of them,
/// are left beside the dead state.
#[test]
fn states_of_a_sequence() {
    for count in 1..=20 {
        let job = job(&many(count), &["a", "a?"]);
        assert_eq!(states(&job), (count + 2) * (count + 3) / 2);
        assert_eq!(find(&job).unwrap().table.states(), count + 2);
    }
    let job_20 = job(&many(20), &["a", "a?"]);
    assert_eq!(states(&job_20), 253);
    assert_eq!(find(&job_20).unwrap().table.states(), 22);
    let job = job(&many(21), &["a", "a?"]);
    assert_eq!(find(&job), Err(10));
    assert_eq!(verdict(&job, ALLOWANCE), Err(10));
    assert_eq!(keep(&job), Err(10));
}

#[test]
fn cover_places() {
    let job_14 = job(&many(62), &["a", &many(14)]);
    let found = find(&job_14).unwrap();
    assert_eq!((states(&job_14), found.table.states()), (64, 64));
    assert_eq!(found.table.states() * (1 + 1 + 14), 1024);
    let verdict_14 = verdict(&job_14, ALLOWANCE).unwrap();
    assert_eq!((verdict_14.missed, verdict_14.pairs), (None, 78));
    let job_15 = job(&many(62), &["a", &many(15)]);
    let found = find(&job_15).unwrap();
    assert_eq!((states(&job_15), found.table.states()), (64, 64));
    assert_eq!(found.table.states() * (1 + 1 + 15), 1088);
    assert_eq!(verdict(&job_15, ALLOWANCE), Err(12));
    assert_eq!(verdict(&job_15, 1), Err(12));
}

#[test]
fn p8() {
    let links = [0, 0, 1, 1, 1, 0, 1, 2, 2];
    let answer = from_links(&example(), 3, &links, 0, 0).unwrap();
    assert_eq!((answer.marks, answer.number), (vec![true, false, true], 2));
    let lists = [0, 0, 1, 1, 1, 0];
    let answer = from_lists(&example(), 3, &lists, 0).unwrap();
    assert_eq!((answer.marks, answer.number), (vec![true, false, false], 1));
    assert_eq!(second::answer::exact_lists(&example(), 3, &links), lists);
}

#[test]
fn printed_example() {
    let expected = "query 5\nstates 4\n0 - 1 2\n1 - 2 3\n2 - 2 2\n3 + 2 2\n\
        first episodes mixes\nmissed episode master\npairs 11\n";
    assert_eq!(printed(EXAMPLE.as_bytes()), expected);
}

#[test]
fn printed_otherwise() {
    let of = |query: &str, lists: &[&str]| printed(text(query, lists).as_bytes());
    assert_eq!(of("a*", &["a*"]), "query 2\nstates 1\n0 + 0\nfirst\ncomplete\npairs 2\n");
    assert_eq!(of("a*", &[]), "query 2\nstates 1\n0 +\nfirst\nmissed a\npairs 2\n");
    assert!(of("a", &["a*"]).contains("\nempty\nmissed a\n"));
    assert!(of("a?", &["a"]).contains("\nfirst\ncomplete\n"));
    assert_eq!(printed(b""), "refused 2 line 1\n");
    assert_eq!(printed(&[b'a'; 8193]), "refused 1\n");
    assert_eq!(of(&many(63), &[]), "refused 9\n");
    assert_eq!(of(&many(21), &["a", "a?"]), "refused 10\n");
    let refused = of(&many(62), &["a", &many(15)]);
    assert!(refused.starts_with("query 64\nstates 64\n0 - 1 "));
    assert!(refused.ends_with(&format!("\nfirst {}\nrefused 12\n", "e0 ".repeat(2) + &["e1"; 4].join(" "))));
}

#[test]
fn kept_example() {
    let (bytes, length) = keep(&example()).unwrap();
    let expected = [
        b"LRW\x00\x01\x02\x00\x04".as_slice(),
        b"\x08episodes\x05mixes",
        &[0, 0, 1, 0, 2],
        &[0, 0, 2, 0, 3],
        &[0, 0, 2, 0, 2],
        &[1, 0, 2, 0, 2],
    ];
    let expected = expected.concat();
    assert_eq!(length, expected.len());
    assert_eq!(bytes[..length], expected);
    assert_eq!(bytes.len(), 8728);
    assert!(bytes[length..].iter().all(|byte| *byte == 0));
}
