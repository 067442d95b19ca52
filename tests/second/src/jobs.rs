//! Random right jobs for Find, Verdict and the answers: small ones, whose
//! lists have to do with the query, and ones near a limit.

use crate::generate::Random;
use crate::read::read;

/// Names for labels: the first ones are short.
pub const LABELS: [&str; 8] = ["a", "b", "c", "d", "a-1", "mix", "ab", "master"];

/// The most labels and lists of a job, and how large its expressions are.
pub struct Size {
    pub labels: usize,
    pub lists: usize,
    pub list: usize,
    pub query: usize,
}

/// A job that can be judged by enumerating short paths.
pub fn small(random: &mut Random) -> String {
    let size = Size { labels: 3, lists: 3, list: 3, query: 6 };
    job(random, &size)
}

/// A job with more of everything.
pub fn larger(random: &mut Random) -> String {
    let size = Size { labels: 5, lists: 6, list: 6, query: 12 };
    job(random, &size)
}

/// A right job of this size.
pub fn job(random: &mut Random, size: &Size) -> String {
    loop {
        let text = any_job(random, size);
        if read(text.as_bytes()).is_ok() {
            return text;
        }
    }
}

fn any_job(random: &mut Random, size: &Size) -> String {
    let labels = &LABELS[..random.between(1, size.labels)];
    let lists = lists(random, labels, size.lists, size.list);
    // Half of the queries are made of the lists, so that words are accepted.
    let query = if random.one_in(2) || lists.is_empty() {
        let size = random.between(1, size.query);
        expression(random, labels, size)
    } else {
        let parts: Vec<String> = lists.iter().map(|part| format!("({part})")).collect();
        let size = random.between(1, 3);
        expression(random, &parts, size)
    };
    text(labels, &query, &lists)
}

/// Expressions for at most `most` lists, of at most `size` parts.
pub fn lists(random: &mut Random, labels: &[&str], most: usize, size: usize) -> Vec<String> {
    let mut lists = Vec::new();
    for _ in 0..random.between(0, most) {
        let size = random.between(1, size);
        lists.push(expression(random, labels, size));
    }
    lists
}

/// A job of these labels, with lists named e0, e1 and so on.
pub fn text(labels: &[impl AsRef<str>], query: &str, lists: &[impl AsRef<str>]) -> String {
    let mut text = String::new();
    for label in labels {
        text += &format!("label {}\n", label.as_ref());
    }
    text += &format!("query {query}\n");
    for (number, list) in lists.iter().enumerate() {
        text += &format!("list e{number} {}\n", list.as_ref());
    }
    text
}

/// `count` times `a`, in sequence.
pub fn many(count: usize) -> String {
    vec!["a"; count].join(".")
}

/// An expression of `size` parts, each one of those given or nothing.
pub fn expression(random: &mut Random, parts: &[impl AsRef<str>], size: usize) -> String {
    if size <= 1 {
        let part = random.pick(parts).as_ref();
        return match random.below(12) {
            0 => "()".to_string(),
            1 => format!("{part}*"),
            2 => format!("{part}?"),
            _ => part.to_string(),
        };
    }
    let left = random.between(1, size - 1);
    let (one, two) = (expression(random, parts, left), expression(random, parts, size - left));
    match random.below(7) {
        0 | 1 => format!("({one}|{two})"),
        2 => format!("({one}.{two})*"),
        3 => format!("({one}|{two})*"),
        4 => format!("({one}).{two}?"),
        5 => format!("({one}|{two})?"),
        _ => format!("({one}.{two})"),
    }
}

/// Any path over a and b whose label so many places from the end is a: the
/// standings double with each place.
pub fn from_the_end(places: usize) -> String {
    format!("(a|b)*.a{}", ".(a|b)".repeat(places))
}

/// A job near a limit of standings, states or cover places, on either side.
pub fn near_limit(random: &mut Random) -> String {
    match random.below(3) {
        // 64 standings at 62, 65 at 63; 1,024 places at 62 and 14.
        0 => {
            let (query, list) = (random.between(58, 63), random.between(12, 16));
            text(&["a"], &many(query), &["a", &many(list)])
        }
        // 253 states at 20, 276 at 21.
        1 => text(&["a"], &many(random.between(1, 22)), &["a", "a?"]),
        // 33 standings at 4, 65 at 5.
        _ => {
            let query = from_the_end(random.between(1, 6));
            let lists = &["a", "b", "a|b", "(a|b)*"][random.below(4)..];
            text(&["a", "b"], &query, lists)
        }
    }
}
