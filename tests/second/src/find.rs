//! Find: the rewriting, as the table with the fewest states, and its first
//! word.

use crate::merge::merged_by;
use crate::read::Job;
use crate::states::States;
use crate::table::Table;
use crate::turn::Turn;

#[derive(Clone, Debug, PartialEq, Eq)]
pub struct Found {
    /// The number of query standings.
    pub standings: usize,
    /// The states, merged.
    pub table: Table,
    /// The shortest accepted word, first in list order.
    pub first: Option<Vec<usize>>,
}

/// Refusals: 9, over 64 query standings; 10, over 256 states before merging.
pub fn find(job: &Job) -> Result<Found, u8> {
    find_by(Turn::Right, job)
}

pub fn find_by(turn: Turn, job: &Job) -> Result<Found, u8> {
    let states = States::by(turn, job)?;
    let table = merged_by(turn, &states.table);
    Ok(Found { standings: states.standings, table, first: states.first })
}
