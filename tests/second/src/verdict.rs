//! Verdict: whether every query path is yielded, or the first that is not.

use crate::cover::Cover;
use crate::explore::Explored;
use crate::find::{find_by, Found};
use crate::read::Job;
use crate::turn::Turn;

#[derive(Clone, Debug, PartialEq, Eq)]
pub struct Verdict {
    pub found: Found,
    /// The first missed path: the shortest, first in label order. None if the
    /// lists are complete.
    pub missed: Option<Vec<usize>>,
    /// The number of distinct pairs over all paths.
    pub pairs: usize,
}

/// A query standing with the cover places that a path reaches, rising.
type Pair = (usize, Vec<usize>);

/// Refusals: 9 and 10 as in Find; 12, over 1,024 cover places; 13, more
/// distinct pairs than the allowance. Places and pairs are those of Find's
/// table, with its states merged.
pub fn verdict(job: &Job, allowance: usize) -> Result<Verdict, u8> {
    verdict_by(Turn::Right, job, allowance)
}

pub fn verdict_by(turn: Turn, job: &Job, allowance: usize) -> Result<Verdict, u8> {
    let found = find_by(turn, job)?;
    let query = turn.query(job)?;
    let cover = Cover::new(turn, job, &found.table)?;

    let step = |(standing, places): &Pair, label: usize| (query.next[*standing][label], cover.after(places, label));
    let start = (0, cover.start.clone());
    let pairs = Explored::new(start, job.labels.len(), allowance, step).ok_or(13)?;

    let is_missed = |(standing, places): &Pair| {
        let states = places.iter().map(|place| cover.state_alone(*place));
        let spelled = states.clone().any(|state| state.is_some());
        let yielded = turn.one(states.map(|state| state.is_some_and(|s| found.table.accepting[s])));
        query.accepts[*standing] && !yielded && turn.may_be_missed(spelled)
    };
    let missed = pairs.values.iter().position(is_missed);
    Ok(Verdict { missed: missed.map(|pair| pairs.word(pair)), pairs: pairs.values.len(), found })
}
