//! The operations on lent buffers: the order of the checks, and what every
//! buffer holds afterwards.

mod answers;
mod find;
mod keep;
mod verdict;

use second::jobs::{many, text};
use second::read::Refusal;

// What the buffers are filled with beforehand.
const NUMBER: u16 = 0xa5c3;
const BYTE: u8 = 0xa5;
const WORD: u64 = 0xa5c3_0f1e_2d4b_6978;

/// One label, so that the query has as many standings as are asked.
fn sequence(count: usize, lists: &[&str]) -> String {
    text(&["a"], &many(count), lists)
}

fn no_line(number: u8) -> Refusal {
    Refusal { number, line: 0 }
}

fn at_line(number: u8, line: u32) -> Refusal {
    Refusal { number, line }
}

/// Whether the front part is all zero and the rest as it was.
fn zeroed<T: PartialEq + Default>(buffer: &[T], named: usize, filling: T) -> bool {
    let zero = T::default();
    buffer[..named].iter().all(|one| *one == zero) && buffer[named..].iter().all(|one| *one == filling)
}
