//! Every condition of a refusal that a text meets, told or not, and the pairs
//! of conditions that one text can meet.
//!
//! A condition is looked at by itself: in every line, whatever is wrong before
//! it, and in all of an expression's bytes, also where they are not in the
//! grammar. The reader tells the first.

mod pairs;

pub use pairs::{pairs, Pair};

use crate::read::{Fault, Reason, Reason::*};
use crate::read::{
    MOST_DEPTH, MOST_EXPRESSION_BYTES, MOST_LABELS, MOST_LISTS, MOST_NAME_BYTES, MOST_OCCURRENCES, MOST_TEXT_BYTES,
};
use std::collections::HashSet;

/// The conditions that `text` meets, in the order of the checks.
pub fn conditions(text: &[u8]) -> Vec<Fault> {
    let mut met = Vec::new();
    let mut before = Before::default();
    let mut line = 0;
    if text.len() > MOST_TEXT_BYTES {
        let reason = TextTooLong;
        met.push(Fault { reason, line });
    }
    for bytes in text.split_inclusive(|&byte| byte == 10) {
        line += 1;
        let closed = bytes.strip_suffix(b"\n");
        if closed.is_none() {
            let reason = NotClosed;
            met.push(Fault { reason, line });
        }
        for reason in before.line(closed.unwrap_or(bytes)) {
            met.push(Fault { reason, line });
        }
    }
    if before.queries == 0 {
        let (reason, line) = (NoQuery, line + 1);
        met.push(Fault { reason, line });
    }
    met
}

/// What the lines before have, each taken for what its first word says.
#[derive(Default)]
struct Before<'a> {
    labels: usize,
    queries: usize,
    lists: usize,
    label_names: HashSet<&'a [u8]>,
    list_names: HashSet<&'a [u8]>,
}

impl<'a> Before<'a> {
    /// The conditions of one line, in the order of the checks.
    fn line(&mut self, bytes: &'a [u8]) -> Vec<Reason> {
        let mut met = Vec::new();
        let mut note = |holds, reason| {
            if holds {
                met.push(reason)
            }
        };
        if let Some(name) = bytes.strip_prefix(b"label ") {
            note(self.queries > 0, OutOfPlace);
            self.labels += 1;
            note(self.labels > MOST_LABELS, TooManyLabels);
            note(!is_name(name), BadName);
            note(is_name(name) && !self.label_names.insert(name), RepeatedName);
        } else if let Some(expr) = bytes.strip_prefix(b"query ") {
            note(self.labels == 0 || self.queries > 0, OutOfPlace);
            self.queries += 1;
            met.extend(expression(expr, &self.label_names));
        } else if let Some(rest) = bytes.strip_prefix(b"list ") {
            let mut parts = rest.splitn(2, |&byte| byte == b' ');
            let (name, expr) = (parts.next().unwrap_or_default(), parts.next());
            note(self.queries == 0, OutOfPlace);
            note(expr.is_none(), NoSecondSpace);
            self.lists += 1;
            note(self.lists > MOST_LISTS, TooManyLists);
            note(!is_name(name), BadName);
            note(is_name(name) && !self.list_names.insert(name), RepeatedName);
            if let Some(expr) = expr {
                met.extend(expression(expr, &self.label_names));
            }
        } else {
            note(true, WrongWord);
        }
        met
    }
}

fn is_name_byte(byte: u8) -> bool {
    matches!(byte, b'a'..=b'z' | b'0'..=b'9' | b'-')
}

fn is_name(bytes: &[u8]) -> bool {
    matches!(bytes.first(), Some(b'a'..=b'z'))
        && bytes.len() <= MOST_NAME_BYTES
        && bytes.iter().all(|&byte| is_name_byte(byte))
}

/// The conditions of an expression, in the order of the checks.
fn expression(bytes: &[u8], labels: &HashSet<&[u8]>) -> Vec<Reason> {
    let runs = bytes.split(|&byte| !is_name_byte(byte));
    let runs: Vec<&[u8]> = runs.filter(|run| !run.is_empty()).collect();
    let unknown = |run: &&[u8]| is_name(run) && !labels.contains(run);
    let conditions = [
        (bytes.len() > MOST_EXPRESSION_BYTES, ExpressionTooLong),
        (!in_grammar(bytes), NotInGrammar),
        (depth(bytes) > MOST_DEPTH, TooDeep),
        (runs.iter().any(unknown), UnknownLabel),
        (runs.len() > MOST_OCCURRENCES, TooManyOccurrences),
    ];
    let met = conditions.into_iter().filter(|(holds, _)| *holds);
    met.map(|(_, reason)| reason).collect()
}

fn depth(bytes: &[u8]) -> usize {
    let mut open: usize = 0;
    let mut deepest = 0;
    for byte in bytes {
        match byte {
            b'(' => open += 1,
            b')' => open = open.saturating_sub(1),
            _ => {}
        }
        deepest = deepest.max(open);
    }
    deepest
}

/// Whether the bytes are in the grammar, by what may follow what: no tree is
/// made.
fn in_grammar(bytes: &[u8]) -> bool {
    enum Last {
        Join,
        Open,
        Factor,
    }
    let mut last = Last::Join;
    let mut open = 0usize;
    for part in bytes.chunk_by(|&byte, &next| is_name_byte(byte) && is_name_byte(next)) {
        last = match (last, part) {
            (Last::Factor, b"*" | b"?") => Last::Factor,
            (Last::Factor, b"." | b"|") => Last::Join,
            (Last::Factor | Last::Open, b")") if open > 0 => {
                open -= 1;
                Last::Factor
            }
            (Last::Join | Last::Open, b"(") => {
                open += 1;
                Last::Open
            }
            (Last::Join | Last::Open, name) if is_name(name) => Last::Factor,
            _ => return false,
        };
    }
    open == 0 && matches!(last, Last::Factor)
}
