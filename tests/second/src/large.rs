//! Random right jobs whose states stay many when they are merged. Most random
//! jobs end at one or two: a word is lost as soon as one of its paths is, and
//! then all that can follow is.

use crate::generate::Random;
use crate::jobs::{text, LABELS};

/// A job of any of these kinds.
pub fn large(random: &mut Random) -> String {
    match random.below(4) {
        0 => slack(random),
        1 => counter(random),
        2 => subsets(random),
        _ => chain(random),
    }
}

/// A sequence whose last labels are optional: m labels, then up to r more. After
/// a list that lags behind, a word stands at a run of neighbouring places, and
/// as long as the run is no longer than r it can still be accepted: about m × r
/// states.
pub fn slack(random: &mut Random) -> String {
    let total = random.between(3, 19);
    let sure = random.between(1, total - 1);
    let label = if random.one_in(4) { "(a|b)" } else { "a" };
    let query = sequence(label, sure, total - sure);
    text(&["a", "b"], &query, &lagging(random, label))
}

/// The same with the sequence in a circle: n labels, any number of times, then
/// up to r more. About n × r states.
pub fn counter(random: &mut Random) -> String {
    let many = random.one_in(3);
    let round = random.between(if many { 14 } else { 2 }, 15);
    let more = random.between(if many { 9 } else { 0 }, round - 2);
    let optional = if more > 0 { format!(".{}", sequence("a", 0, more)) } else { String::new() };
    let query = format!("({})*{optional}", sequence("a", round, 0));
    text(&["a"], &query, &lagging(random, "a"))
}

/// So many labels, then so many optional ones.
fn sequence(label: &str, sure: usize, optional: usize) -> String {
    let factors = (0..sure + optional).map(|place| if place < sure { label.to_string() } else { format!("{label}?") });
    factors.collect::<Vec<_>>().join(".")
}

/// A list of one label, one that may have a label less or more, and others, in
/// any order.
fn lagging(random: &mut Random, label: &str) -> Vec<String> {
    let (none, more) = (format!("{label}?"), format!("{label}.{label}?"));
    let mut lists = match random.below(3) {
        0 => vec![label.to_string(), more],
        1 => vec![label.to_string(), none, more],
        _ => vec![label.to_string(), none],
    };
    for _ in 0..random.below(3) {
        let both = format!("{label}.{label}");
        lists.push(if random.one_in(2) { both } else { label.to_string() });
    }
    let first = random.below(lists.len());
    lists.swap(0, first);
    lists
}

/// Letters that may each be there or not, and then a sign that some of the
/// letters allow as the last one before it. A state has the set of letters
/// behind it, for a sign is accepted where all of them allow it.
pub fn subsets(random: &mut Random) -> String {
    let count = random.between(2, 6);
    let letters: Vec<String> = (0..count).map(|number| format!("x{number}")).collect();
    let signs: Vec<String> = (0..count).map(|number| format!("y{number}")).collect();
    // Mostly all letters but the one with the sign's own number allow it.
    let strict = random.one_in(2);
    let ways = signs.iter().enumerate().filter_map(|(own, sign)| {
        let allow = (0..count).filter(|letter| *letter != own && (strict || !random.one_in(5)));
        let allow: Vec<&str> = allow.map(|letter| letters[letter].as_str()).collect();
        (!allow.is_empty()).then(|| format!("({}).{sign}", allow.join("|")))
    });
    let ways: Vec<String> = ways.collect();
    let query = format!("({})*.({})|{}", letters.join("|"), ways.join("|"), signs.join("|"));
    let mut lists: Vec<String> = letters.iter().map(|letter| format!("{letter}?")).collect();
    lists.extend(signs.iter().cloned());
    text(&[letters, signs].concat(), &query, &lists)
}

/// A long sequence of labels, now and then in a circle, with lists of which each
/// is a part of it: a state for each place that they lead to.
pub fn chain(random: &mut Random) -> String {
    let labels = &LABELS[..random.between(1, 3)];
    let length = random.between(10, 60);
    let row: Vec<&str> = (0..length).map(|_| *random.pick(labels)).collect();
    let query = row.join(".");
    let query = if random.one_in(3) { format!("({query})*") } else { query };
    let mut lists: Vec<String> = labels.iter().map(|label| label.to_string()).collect();
    for _ in 0..random.below(4) {
        let start = random.below(length);
        let end = random.between(start + 1, length.min(start + 14));
        lists.push(row[start..end].join("."));
    }
    text(labels, &query, &lists)
}
