//! Expressions of a given length, depth or number of occurrences.

use super::random::Random;
use crate::read::{MOST_DEPTH, MOST_EXPRESSION_BYTES};

pub fn shortest(labels: &[Vec<u8>]) -> &Vec<u8> {
    labels.iter().min_by_key(|label| label.len()).expect("a job has labels")
}

/// A right expression made longer, up to `bytes` bytes, without a label more:
/// empty paths before it, marks after it.
pub fn padded(random: &mut Random, expr: Vec<u8>, bytes: usize) -> Vec<u8> {
    let missing = bytes.saturating_sub(expr.len());
    let empties = if random.one_in(2) { random.between(0, missing / 3) } else { 0 };
    let mut longer = Vec::new();
    for _ in 0..empties {
        longer.extend(b"()");
        longer.push(*random.pick(b".|"));
    }
    longer.extend(expr);
    while longer.len() < bytes {
        longer.push(*random.pick(b"*?"));
    }
    longer
}

/// An expression whose parentheses are exactly `depth` deep.
pub fn nested(random: &mut Random, labels: &[Vec<u8>], depth: usize) -> Vec<u8> {
    loop {
        let mut expr = match random.below(3) {
            0 => b"()".to_vec(),
            _ => [b"(", &random.pick(labels)[..], b")"].concat(),
        };
        for _ in 1..depth {
            let mut outer = b"(".to_vec();
            if random.one_in(4) {
                outer.extend(beside(random, labels));
                outer.push(*random.pick(b".|"));
            }
            outer.extend(expr);
            if random.one_in(4) {
                outer.push(*random.pick(b"*?"));
            }
            if random.one_in(4) {
                outer.push(*random.pick(b".|"));
                outer.extend(beside(random, labels));
            }
            outer.push(b')');
            expr = outer;
        }
        if expr.len() <= MOST_EXPRESSION_BYTES {
            return expr;
        }
    }
}

/// A small factor to stand beside another.
fn beside(random: &mut Random, labels: &[Vec<u8>]) -> Vec<u8> {
    match random.below(3) {
        0 => b"()".to_vec(),
        1 => shortest(labels).clone(),
        _ => [b"(", &shortest(labels)[..], b")?"].concat(),
    }
}

/// An expression of exactly `count` label occurrences.
pub fn occurring(random: &mut Random, labels: &[Vec<u8>], count: usize) -> Vec<u8> {
    loop {
        let mut expr = Vec::new();
        let mut open = 0;
        for place in 0..count {
            if place > 0 {
                expr.push(*random.pick(b"..|"));
            }
            if open < MOST_DEPTH && random.one_in(12) {
                expr.push(b'(');
                open += 1;
            }
            if random.one_in(8) && open < MOST_DEPTH {
                expr.extend(b"().");
            }
            expr.extend(if random.one_in(8) { random.pick(labels) } else { shortest(labels) });
            if random.one_in(10) {
                expr.push(*random.pick(b"*?"));
            }
            if open > 0 && random.one_in(12) {
                expr.push(b')');
                open -= 1;
            }
        }
        expr.extend(vec![b')'; open]);
        if expr.len() <= MOST_EXPRESSION_BYTES {
            return expr;
        }
    }
}
