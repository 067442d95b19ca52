//! The texts that need no chance.

use super::{Text, MARKED_BYTES};
use crate::cases;

/// The texts that need no chance.
pub fn fixed() -> Vec<Text> {
    let mut all = Vec::new();
    for case in cases::all() {
        let mut text = Text::new("hand-made", case.text).expecting(case.number, case.line);
        text.why = Some(case.why);
        all.push(text);
    }
    let mut add = |family, bytes| all.push(Text::new(family, bytes));
    every_byte(&mut add);
    cut_or_dropped(&mut add);
    short_expressions(&mut add);
    short_line_sequences(&mut add);
    all
}

type Add<'a> = &'a mut dyn FnMut(&'static str, Vec<u8>);

const SHORT_JOB: &[u8] = b"label a\nlabel b-1\nquery a.(b-1|())*?\nlist e a\nlist a (b-1)\n";

/// Bytes 0 to 255 at every position of a short job.
fn every_byte(add: Add) {
    for place in 0..SHORT_JOB.len() {
        for byte in 0..=255 {
            let mut text = SHORT_JOB.to_vec();
            text[place] = byte;
            add("every byte", text);
        }
    }
}

/// Every front part of a short job, every job with one byte less, and every
/// job with one of some bytes more.
fn cut_or_dropped(add: Add) {
    for place in 0..=SHORT_JOB.len() {
        add("cut or dropped", SHORT_JOB[..place].to_vec());
        add("cut or dropped", SHORT_JOB[place..].to_vec());
        for byte in MARKED_BYTES {
            let mut text = SHORT_JOB.to_vec();
            text.insert(place, *byte);
            add("cut or dropped", text);
        }
    }
    for place in 0..SHORT_JOB.len() {
        let mut text = SHORT_JOB.to_vec();
        text.remove(place);
        add("cut or dropped", text);
    }
}

/// Every expression of at most five signs out of seven.
fn short_expressions(add: Add) {
    for expr in sequences(&["a", "1", ".", "|", "*", "(", ")"], 5) {
        let text = format!("label a\nlabel a1\nquery {}\n", expr.concat());
        add("short expressions", text.into_bytes());
    }
}

/// Every sequence of at most three lines out of some, from the first line on
/// and, of at most two, after a query; the last line closed or not.
fn short_line_sequences(add: Add) {
    let lines = [
        "", "label a", "label b", "label A", "label ", "label", "query a", "query b", "query a.", "query ", "query",
        "list e a", "list f b", "list E a", "list e ", "list e", "list  ", "list ", "list", "x",
    ];
    for (start, most) in [("", 3), ("label a\nquery a\n", 2), ("label a\nlabel b\nquery a\nlist e b\n", 2)] {
        for sequence in sequences(&lines, most) {
            let text = format!("{start}{}", sequence.join("\n"));
            add("short line sequences", text.clone().into_bytes());
            add("short line sequences", (text + "\n").into_bytes());
        }
    }
}

/// All sequences of at most `most` of the given parts.
fn sequences<'a>(parts: &[&'a str], most: usize) -> Vec<Vec<&'a str>> {
    let mut all = vec![Vec::new()];
    let mut start = 0;
    for _ in 0..most {
        let end = all.len();
        for place in start..end {
            for part in parts {
                let mut longer = all[place].clone();
                longer.push(*part);
                all.push(longer);
            }
        }
        start = end;
    }
    all
}
