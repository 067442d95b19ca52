//! The states that lists with the empty path lead to.

use crate::bits::unite;
use crate::expression::Automaton;
use crate::states::Rewriting;

/// For each state all states that words of the empty path lead to from it.
pub fn closures(rewriting: &Rewriting, lists: &[Automaton]) -> Vec<[u64; 4]> {
    let nullable: Vec<usize> = (0..lists.len()).filter(|&list| lists[list].accepting & 1 == 1).collect();
    let mut closures: Vec<[u64; 4]> = (0..rewriting.count).map(single).collect();
    if nullable.is_empty() {
        return closures;
    }
    let mut changed = true;
    while changed {
        changed = false;
        for state in (0..rewriting.count).rev() {
            let before = closures[state];
            for &list in &nullable {
                let next = closures[rewriting.next[rewriting.lists * state + list] as usize];
                unite(&mut closures[state], &next);
            }
            changed |= before != closures[state];
        }
    }
    closures
}

fn single(state: usize) -> [u64; 4] {
    let mut set = [0; 4];
    set[state / 64] = 1 << (state % 64);
    set
}
