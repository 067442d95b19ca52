//! Expressions with faults made on purpose.

use super::expressions::{padded, shortest};
use super::random::Random;
use super::right::new_name;
use super::MARKED_BYTES;
use crate::read::{MOST_DEPTH, MOST_EXPRESSION_BYTES, MOST_NAME_BYTES, MOST_OCCURRENCES};

/// An expression with one to three of the five faults an expression can have,
/// in any order.
pub fn bad_expression(random: &mut Random, labels: &[Vec<u8>]) -> Vec<u8> {
    let mut parts = Vec::new();
    let mut is_long = false;
    for _ in 0..random.between(1, 3) {
        match random.below(5) {
            0 => is_long = true,
            1 => parts.push(not_in_grammar(random, labels)),
            2 => parts.push(too_deep(random, labels)),
            3 => parts.push(unknown(random, labels)),
            _ => parts.push(too_many(random, labels)),
        }
    }
    for _ in 0..random.below(3) {
        let at = random.below(parts.len() + 1);
        parts.insert(at, random.pick(labels).clone());
    }
    for place in 1..parts.len() {
        let other = random.below(place + 1);
        parts.swap(place, other);
    }
    let mut expr = parts.join(random.pick(b".|"));
    if random.one_in(6) {
        expr = [b"(", &expr[..], b")*"].concat();
    }
    if is_long {
        expr = too_long(random, expr);
    }
    expr
}

/// The expression made too long, by marks or by any bytes.
fn too_long(random: &mut Random, mut expr: Vec<u8>) -> Vec<u8> {
    let bytes = MOST_EXPRESSION_BYTES + random.between(1, 4);
    if random.one_in(2) {
        return padded(random, expr, bytes);
    }
    while expr.len() < bytes {
        expr.push(*random.pick(MARKED_BYTES));
        // Byte 10 would end the line.
        if expr.ends_with(b"\n") {
            expr.pop();
        }
    }
    expr
}

/// As `nested`, but with labels of any length, and no matter how long.
fn too_deep(random: &mut Random, labels: &[Vec<u8>]) -> Vec<u8> {
    let depth = MOST_DEPTH + random.between(1, 3);
    let inner = if random.one_in(2) { Vec::new() } else { random.pick(labels).clone() };
    [vec![b'('; depth], inner, vec![b')'; depth]].concat()
}

/// Too many occurrences, in sequence.
fn too_many(random: &mut Random, labels: &[Vec<u8>]) -> Vec<u8> {
    let count = MOST_OCCURRENCES + random.between(1, 4);
    vec![&shortest(labels)[..]; count].join(&b'.')
}

/// A name that is no label, often one that begins like a label.
fn unknown(random: &mut Random, labels: &[Vec<u8>]) -> Vec<u8> {
    loop {
        let mut name = random.pick(labels).clone();
        match random.below(3) {
            0 => name.push(*random.pick(b"a-0z")),
            1 => {
                name.pop();
            }
            _ => name = new_name(random, labels),
        }
        if !name.is_empty() && name.len() <= MOST_NAME_BYTES && !labels.contains(&name) {
            return name;
        }
    }
}

/// A piece that no expression has, `L` standing for a label.
fn not_in_grammar(random: &mut Random, labels: &[Vec<u8>]) -> Vec<u8> {
    let pieces: [&[u8]; 48] = [
        b"", b"L..L", b".L", b"L.", b"|L", b"L|", b"L||L", b"L.|L", b"L|.L", b"*", b"?L", b"L*L", b"(L", b"L)", b")(",
        b"(L))", b"((L)", b"(.L)", b"(L|)", b"(*)", b"L()", b"()L", b"()()", b"L(L)", b"(L)(L)", b"(L)L", b"L L",
        b" L", b"L ", b"( )", b"9", b"9L", b"-", b"-L", b"L.9", b"A", b"L_L", b"L+L", b"\t", b"L\r",
        b"LLLLLLLLLLLLLLLLL", b"\0", b"L\0", b"\x80", b"L\xff", b"\xc3\xa9", b"L,L", b"L&L",
    ];
    let piece = *random.pick(&pieces);
    let mut out = Vec::new();
    for &byte in piece {
        if byte == b'L' {
            out.extend(random.pick(labels));
        } else {
            out.push(byte);
        }
    }
    out
}
