//! Job texts: those of document 01, the job of 4,036 pairs, random ones.

use crate::random::Random;

pub fn text(labels: &[&str], query: &str, lists: &[String]) -> String {
    let mut text = String::new();
    for label in labels {
        text += &format!("label {label}\n");
    }
    text += &format!("query {query}\n");
    for (number, list) in lists.iter().enumerate() {
        text += &format!("list e{number} {list}\n");
    }
    text
}

fn owned(lists: &[&str]) -> Vec<String> {
    lists.iter().map(|list| list.to_string()).collect()
}

/// `count` times `a`, in sequence.
pub fn many(count: usize) -> String {
    vec!["a"; count].join(".")
}

/// So many a's with the lists `a` and `a?`: at 20, 253 states before merging
/// and 22 after.
pub fn optional(count: usize) -> String {
    text(&["a"], &many(count), &owned(&["a", "a?"]))
}

/// 15 a's any number of times and up to 13 more, with the lists `a` and `a?`:
/// 227 states before merging, 211 after.
pub fn counter() -> String {
    let query = format!("({})*{}", many(15), ".a?".repeat(13));
    text(&["a"], &query, &owned(&["a", "a?"]))
}

/// 62 a's with the lists `a` and 14 a's: 1,024 places.
pub fn places() -> String {
    text(&["a"], &many(62), &[many(1), many(14)])
}

/// 62 a's: 64 standings.
pub fn standings() -> String {
    text(&["a"], &many(62), &owned(&["a"]))
}

/// The query of 33 standings.
fn four_from_the_end() -> String {
    format!("(a|b)*.a{}", ".(a|b)".repeat(4))
}

/// 33 standings.
pub fn from_the_end() -> String {
    text(&["a", "b"], &four_from_the_end(), &owned(&["a", "b"]))
}

/// The job of 4,036 pairs: 239 states before merging, 32 after.
pub fn pairs() -> String {
    text(&["a", "b"], &four_from_the_end(), &owned(&["a", "a|b", "(a.a.(a.b)*)*"]))
}

/// Any path is asked for; the pairs double with each of the list's last factors.
pub fn doubling(count: usize) -> String {
    text(&["a", "b"], "(a|b)*", &[format!("(a|b)*.a{}", ".(a|b)".repeat(count))])
}

/// Document 001's example 2: 6 states before merging, 3 after.
pub fn example() -> String {
    text(&["a", "b", "c"], "a.(b.a|c)*", &owned(&["a", "a.c*.b", "c"]))
}

/// A random expression of so many occurrences.
pub fn expression(random: &mut Random, labels: &[&str], occurrences: usize) -> String {
    if occurrences == 1 {
        let label = labels[random.below(labels.len())];
        return match random.below(10) {
            0 => format!("{label}*"),
            1 => format!("{label}?"),
            _ => label.to_string(),
        };
    }
    let left = random.between(1, occurrences - 1);
    let one = expression(random, labels, left);
    let two = expression(random, labels, occurrences - left);
    match random.below(8) {
        0..=2 => format!("({one}|{two})"),
        3 => format!("({one}.{two})*"),
        4 => format!("({one}|{two})*"),
        _ => format!("{one}.{two}"),
    }
}

/// A random job with so many lists of so many occurrences each, and a query
/// of 12.
pub fn random(random: &mut Random, lists: usize, occurrences: usize) -> String {
    let labels = &["a", "b", "c"][..random.between(2, 3)];
    let query = expression(random, labels, 12);
    let lists: Vec<String> = (0..lists).map(|_| expression(random, labels, occurrences)).collect();
    text(labels, &query, &lists)
}
