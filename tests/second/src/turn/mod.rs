//! The wrong turns that the scope document names, and those of merging, to see
//! that each leads to another answer. Find and Verdict take a turn; every other
//! operation takes the right one.

mod merging;

use crate::automaton::{Automaton, Standings};
use crate::read::{Expr, Job};

#[derive(Clone, Copy, Debug, PartialEq, Eq)]
pub enum Turn {
    Right,
    /// Accepting a word because one of its paths fits.
    OnePathFits,
    /// Complementing before the sets are formed: in the sets of the query's
    /// places (standings) and in those of the cover places, where one place
    /// that accepts is enough, the places are complemented one by one, and so
    /// all must accept; a set of none then does. (In sets of standings it
    /// would be the turn before.)
    ComplementFirst,
    /// Dropping list words of the empty path: a list name always moves on.
    NoEmptyPath,
    /// Ending a list's path at its first possible end.
    FirstEnd,
    /// Searching for a missed path among list words: only a path that some
    /// list word spells can be missed.
    AmongListWords,
    /// Merging without regard to flags.
    FlagsIgnored,
    /// Merging after one round of refinement: states that only a word of
    /// several names tells apart become one.
    OneRound,
    /// Merging states with equal rows alone, as long as there are any: two that
    /// lead round in a circle stay two.
    EqualRows,
    /// Dropping the dead state, as if a table need not be complete.
    DeadDropped,
    /// Numbering merged states by the last of the states they are merged from,
    /// not by the first words.
    LastMembers,
}

impl Turn {
    /// The query's standings, and which of them accept. Refusal 9 if there
    /// are over 64.
    pub fn query(self, job: &Job) -> Result<Standings, u8> {
        let query = Automaton::new(&job.query);
        let mut standings = Standings::new(&query, job.labels.len())?;
        let sets = standings.sets.iter();
        let accepts = sets.map(|set| self.one(set.iter().map(|place| query.ends_at(*place))));
        standings.accepts = accepts.collect();
        Ok(standings)
    }

    /// A list's places.
    pub fn list(self, expr: &Expr) -> Automaton {
        let mut list = Automaton::new(expr);
        match self {
            Turn::NoEmptyPath => list.nullable = false,
            Turn::FirstEnd => {
                let ends = (0..=list.occurrences()).filter(|place| list.ends_at(*place));
                for end in ends.collect::<Vec<_>>() {
                    list.follow[end].clear();
                }
            }
            _ => {}
        }
        list
    }

    /// Whether a set accepts that does so by one of its places.
    pub fn one(self, mut accept: impl Iterator<Item = bool>) -> bool {
        match self {
            Turn::ComplementFirst => accept.all(|accepts| accepts),
            _ => accept.any(|accepts| accepts),
        }
    }

    /// Whether a state accepts, by its standings.
    pub fn all(self, mut accept: impl Iterator<Item = bool>) -> bool {
        match self {
            Turn::OnePathFits => accept.any(|accepts| accepts),
            _ => accept.all(|accepts| accepts),
        }
    }

    /// Whether a path may be missed, by whether a list word spells it.
    pub fn may_be_missed(self, spelled: bool) -> bool {
        spelled || self != Turn::AmongListWords
    }
}
