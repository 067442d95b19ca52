//! Answer from lists: the states of the rewriting but the dead one, from which
//! no accepting one is reached, numbered anew.

use crate::search::{Machine, LEFT_OUT};
use crate::states::Rewriting;

/// State 0 keeps its number where it is useful; where it is not, none is.
pub fn machine(found: &Rewriting) -> Machine {
    let dead = (0..found.count).find(|&state| is_dead(found, state)).unwrap_or(found.count);
    let (mut next, mut accepting) = (Vec::with_capacity(found.next.len()), [0; 4]);
    for state in (0..found.count).filter(|&state| state != dead) {
        let number = state - (state > dead) as usize;
        accepting[number / 64] |= (found.accepts[state] as u64) << (number % 64);
        next.extend(found.row(state).iter().map(|&to| match to as usize {
            to if to == dead => LEFT_OUT,
            to => (to - (to > dead) as usize) as u16,
        }));
    }
    let count = found.count - (dead < found.count) as usize;
    Machine { symbols: found.lists, count, next, accepting }
}

/// Merged states have at most one that leads to no accepting one: it leads to
/// itself alone.
fn is_dead(found: &Rewriting, state: usize) -> bool {
    !found.accepts[state] && found.row(state).iter().all(|&next| next as usize == state)
}
