//! Jobs damaged at random, and texts that are too long.

use super::broken::broken;
use super::expressions::padded;
use super::random::Random;
use super::right::right_job;
use super::MARKED_BYTES;
use crate::read::MOST_TEXT_BYTES;

/// A right job, damaged in one to three places.
pub fn damaged(random: &mut Random) -> Vec<u8> {
    let mut text = right_job(random).text();
    for _ in 0..random.between(1, 3) {
        damage(random, &mut text);
    }
    text
}

fn damage(random: &mut Random, text: &mut Vec<u8>) {
    if text.is_empty() {
        return;
    }
    let at = random.below(text.len());
    match random.below(10) {
        0 => text[at] = random.below(256) as u8,
        1 | 2 => text[at] = *random.pick(MARKED_BYTES),
        3 => {
            text.remove(at);
        }
        4 => {
            let end = text.len().min(at + random.between(1, 20));
            text.drain(at..end);
        }
        5 => text.insert(at, *random.pick(MARKED_BYTES)),
        6 => {
            // A run of bytes put in again elsewhere.
            let end = text.len().min(at + random.between(1, 20));
            let run = text[at..end].to_vec();
            let to = random.below(text.len() + 1);
            text.splice(to..to, run);
        }
        7 => {
            // The end of the text is missing.
            if random.one_in(3) {
                text.truncate(at);
            } else {
                text.swap(at, at / 2);
            }
        }
        _ => damage_lines(random, text),
    }
}

/// A line moved, doubled or dropped.
fn damage_lines(random: &mut Random, text: &mut Vec<u8>) {
    let mut lines: Vec<Vec<u8>> = text.split_inclusive(|&byte| byte == 10).map(<[u8]>::to_vec).collect();
    let from = random.below(lines.len());
    let line = match random.below(3) {
        0 => lines[from].clone(),
        1 => lines.remove(from),
        _ => {
            lines.remove(from);
            Vec::new()
        }
    };
    let to = random.below(lines.len() + 1);
    lines.insert(to, line);
    *text = lines.concat();
}

/// A short job with an expression of random signs, often nearly right.
pub fn random_expression(random: &mut Random) -> Vec<u8> {
    let mut expr = Vec::new();
    for _ in 0..random.between(1, 14) {
        expr.push(*random.pick(b"aaab1-...||**?((())) "));
    }
    let before: &[u8] = if random.one_in(2) { b"query " } else { b"query a\nlist e " };
    [b"label a\nlabel b\nlabel aa\n", before, &expr, b"\n"].concat()
}

/// A text over 8,192 bytes, whatever else is wrong with it.
pub fn too_long(random: &mut Random) -> Vec<u8> {
    let mut text = match random.below(4) {
        0 => right_job(random).text(),
        1 => broken(random),
        2 => damaged(random),
        _ => Vec::new(),
    };
    let bytes = match random.below(16) {
        0 => MOST_TEXT_BYTES + 1,
        1 => random.between(16_000, 17_000),
        2 => 65_536 + random.below(100),
        _ => MOST_TEXT_BYTES + random.between(1, 300),
    };
    while text.len() < bytes {
        let more = match random.below(4) {
            0 => right_job(random).text(),
            1 => padded(random, b"a".to_vec(), 1000),
            2 => b"label b\n".repeat(200),
            _ => vec![*random.pick(MARKED_BYTES); random.between(1, 4000)],
        };
        text.extend(more);
    }
    text.truncate(bytes);
    text
}
