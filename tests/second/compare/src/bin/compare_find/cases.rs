//! Document 01's cases of Find with what it says of them, their states merged;
//! and texts for which two refusals hold.

use second::cases::EXAMPLE;
use second::jobs::{from_the_end, many, text};

/// What is said of a case, as far as it is said.
#[derive(Default)]
pub struct Case {
    pub name: String,
    pub text: Vec<u8>,
    /// The refusal and its line; 0 and 0 if there is none.
    pub refused: (u8, u32),
    pub standings: Option<usize>,
    pub states: Option<usize>,
    pub first: Option<Option<Vec<u8>>>,
    /// A flag and the next states, for each state.
    pub rows: Option<Vec<(u8, Vec<u16>)>>,
}

/// A job of letters: the `label` lines have those used and no others, in the
/// alphabet's order.
fn letters(name: &str, query: &str, lists: &[&str]) -> Case {
    let used = |letter: &str| query.contains(letter) || lists.iter().any(|l| l.contains(letter));
    let labels: Vec<&str> = ["a", "b", "c"].into_iter().filter(|l| used(l)).collect();
    Case { name: name.to_string(), text: text(&labels, query, lists).into_bytes(), ..Case::default() }
}

pub fn document() -> Vec<Case> {
    let example = Case {
        name: "P1".to_string(),
        text: EXAMPLE.as_bytes().to_vec(),
        standings: Some(5),
        states: Some(4),
        first: Some(Some(vec![0, 1])),
        rows: Some(vec![(0, vec![1, 2]), (0, vec![2, 3]), (0, vec![2, 2]), (1, vec![2, 2])]),
        ..Case::default()
    };
    vec![
        example,
        Case {
            standings: Some(6),
            states: Some(3),
            rows: Some(vec![(0, vec![1, 0, 2]), (1, vec![2, 2, 1]), (0, vec![2, 2, 2])]),
            ..letters("P2", "a.(b.a|c)*", &["a", "a.c*.b", "c"])
        },
        Case { states: Some(3), ..letters("P3", "a.(b.a|c)*", &["a", "a.c*.b"]) },
        Case {
            states: Some(1),
            first: Some(Some(vec![])),
            rows: Some(vec![(1, vec![0])]),
            ..letters("P4", "a*", &["a*"])
        },
        Case { states: Some(1), first: Some(None), rows: Some(vec![(0, vec![0])]), ..letters("P5", "a", &["a*"]) },
        Case { states: Some(1), first: Some(Some(vec![])), ..letters("P6", "a*", &[]) },
        Case { standings: Some(64), ..letters("62 a's", &many(62), &[]) },
        Case { refused: (9, 0), ..letters("63 a's", &many(63), &[]) },
        Case { refused: (7, 2), ..letters("64 a's", &many(64), &[]) },
        Case { standings: Some(33), ..letters("33 standings", &from_the_end(4), &[]) },
        Case { refused: (9, 0), ..letters("65 standings", &from_the_end(5), &[]) },
        Case { standings: Some(5), states: Some(5), ..letters("P7", &many(3), &["a", "a?"]) },
        Case { states: Some(22), ..letters("20 a's with a and a?", &many(20), &["a", "a?"]) },
        Case { refused: (10, 0), ..letters("21 a's with a and a?", &many(21), &["a", "a?"]) },
        Case {
            standings: Some(64),
            states: Some(64),
            ..letters("62 a's with a and 14 a's", &many(62), &["a", &many(14)])
        },
    ]
}

/// One meaning written in several ways: the same table each time.
pub fn alike() -> Vec<Case> {
    let case = |query: &&str| Case {
        states: Some(2),
        first: Some(Some(vec![0])),
        rows: Some(vec![(0, vec![1]), (1, vec![1])]),
        ..letters(query, query, &["a"])
    };
    ["a.a*", "a*.a", "a|a.a.a*", "a.a?.a*"].iter().map(case).collect()
}

/// Texts for which one of Read's refusals holds together with 9, with 10 or
/// with both, and texts for which 9 and 10 hold: the earlier check decides.
/// Each of them, like every other text, also holds together with 8 where a
/// buffer is too short.
pub fn pairs() -> Vec<Case> {
    let mut pairs = Vec::new();
    for (why, count) in [("10", 21), ("9 and 10", 63)] {
        let job = letters("", &many(count), &["a", "a?"]).text;
        let job = String::from_utf8(job).expect("a text of letters");
        let mut add = |number: u8, line: u32, text: String| {
            pairs.push(Case {
                name: format!("{number} with {why}"),
                text: text.into_bytes(),
                refused: (number, line),
                ..Case::default()
            })
        };
        if count > 62 {
            add(9, 0, job.clone());
        }
        let long = format!("a{}", "*".repeat(511));
        let lists = |end: usize, expr: &str| -> String { (2..end).map(|n| format!("list e{n} {expr}\n")).collect() };
        let more = |lists: String| format!("{job}{lists}");
        add(1, 0, more(lists(18, &long)));
        for (number, line) in [
            (2, "lost e a\n"),
            (2, "list e a"),
            (3, "list E a\n"),
            (3, "list e0 a\n"),
            (5, "list e a.\n"),
            (6, "list e b\n"),
            (7, "list e ((((((((((((((((()))))))))))))))))\n"),
        ] {
            add(number, 5, more(line.to_string()));
        }
        add(7, 5, more(format!("list e {}\n", many(64))));
        add(7, 5, more(format!("list e {long}*\n")));
        add(4, 19, more(lists(17, "a")));
    }
    pairs
}
