//! Answer from links: the standings of the expression, all of them, since the
//! pairs of a recording and a standing are what the search reaches.

use crate::search::Machine;
use crate::standings::Standings;

pub fn machine(found: &Standings) -> Machine {
    let next = found.next.iter().map(|&to| to as u16).collect();
    Machine { symbols: found.labels, count: found.count, next, accepting: [found.accepting, 0, 0, 0] }
}
