//! The search of both answers: recordings with the set of an automaton's
//! states that each is reached in, S words of them.

use crate::bits::for_each;
use crate::table::Table;

/// A deterministic automaton over labels or lists, without the states that are
/// left out.
pub struct Machine {
    pub symbols: usize,
    pub count: usize,
    /// The next state at symbols × state + symbol, `LEFT_OUT` for one that is
    /// left out.
    pub next: Vec<u16>,
    pub accepting: [u64; 4],
}

pub const LEFT_OUT: u16 = 256;

/// Writes the marks, and tells how many are 1. The words begin as zeros.
pub fn mark(machine: &Machine, table: &Table, start: usize, marks: &mut [u8], reached: &mut [u64]) -> usize {
    match machine.count.div_ceil(64) {
        0 => 0,
        1 => search::<1>(machine, table, start, marks, reached),
        2 => search::<2>(machine, table, start, marks, reached),
        3 => search::<3>(machine, table, start, marks, reached),
        _ => search::<4>(machine, table, start, marks, reached),
    }
}

fn search<const S: usize>(
    machine: &Machine,
    table: &Table,
    start: usize,
    marks: &mut [u8],
    reached: &mut [u64],
) -> usize {
    let (reached, _) = reached.as_chunks_mut::<S>();
    let mut pending = vec![[0u64; S]; marks.len()];
    let mut stack = vec![0u16; marks.len() + 1];
    let mut height = 1;
    (stack[0], reached[start][0], pending[start][0]) = (start as u16, 1, 1);
    while height > 0 {
        height -= 1;
        let recording = stack[height] as usize;
        let states = std::mem::replace(&mut pending[recording], [0; S]);
        let (mut symbol, mut after) = (usize::MAX, [0; S]);
        for link in table.leaving(recording) {
            if link[1] as usize != symbol {
                symbol = link[1] as usize;
                after = next(machine, &states, symbol);
            }
            let to = link[2] as usize;
            let (reached, pending) = (&mut reached[to], &mut pending[to]);
            let new: [u64; S] = std::array::from_fn(|word| after[word] & !reached[word]);
            stack[height] = to as u16;
            height += (new != [0; S] && *pending == [0; S]) as usize;
            for word in 0..S {
                reached[word] |= new[word];
                pending[word] |= new[word];
            }
        }
    }
    count(machine, marks, reached)
}

/// The states that the symbol leads to.
#[inline(always)]
fn next<const S: usize>(machine: &Machine, states: &[u64; S], symbol: usize) -> [u64; S] {
    let mut after = [0; S];
    for_each(states, |state| {
        let to = machine.next[machine.symbols * state + symbol];
        if to != LEFT_OUT {
            after[to as usize / 64] |= 1 << (to % 64);
        }
    });
    after
}

fn count<const S: usize>(machine: &Machine, marks: &mut [u8], reached: &[[u64; S]]) -> usize {
    let mut ones = 0;
    for (mark, states) in marks.iter_mut().zip(reached) {
        *mark = (0..S).any(|word| states[word] & machine.accepting[word] != 0) as u8;
        ones += *mark as usize;
    }
    ones
}
