//! Parts that the hand-made texts are made of: expressions over the labels a
//! and b, and lines.

pub use crate::jobs::many;

/// Two labels and a query: three lines, after which lists may follow.
pub const START: &str = "label a\nlabel b\nquery a\n";

/// `inner` inside `depth` parentheses.
pub fn deep(depth: usize, inner: &str) -> String {
    format!("{}{}{}", "(".repeat(depth), inner, ")".repeat(depth))
}

/// `expr` followed by stars up to `bytes` bytes.
pub fn long(bytes: usize, expr: &str) -> String {
    format!("{}{}", expr, "*".repeat(bytes - expr.len()))
}

/// An expression of a given length in which `()` is repeated.
pub fn long_of_empties(bytes: usize) -> String {
    let empties = (bytes + 1) / 3;
    long(bytes, &vec!["()"; empties].join("."))
}

pub fn labels(count: usize) -> String {
    (0..count).map(|n| format!("label l{n}\n")).collect()
}

pub fn lists(count: usize) -> String {
    (0..count).map(|n| format!("list e{n} a\n")).collect()
}

/// 32 labels, the query and 16 lists.
pub fn full_job() -> String {
    let lists: String = (0..16).map(|n| format!("list e{n} l{n}\n")).collect();
    format!("{}query l31\n{lists}", labels(32))
}

/// A right job of exactly `bytes` bytes, which must lie near 8,192: a label, a
/// query of 500 bytes, 14 lists of 512 and a last one that fills the rest.
pub fn job_of_bytes(bytes: usize) -> String {
    let mut text = format!("label a\nquery {}\n", long(500, "a"));
    for n in 0..14 {
        text += &format!("list {} {}\n", (b'a' + n) as char, long(512, "a"));
    }
    let last = bytes - text.len() - "list z \n".len();
    text += &format!("list z {}\n", long(last, "a"));
    assert_eq!(text.len(), bytes);
    text
}
