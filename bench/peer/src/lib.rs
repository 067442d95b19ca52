//! Find, Verdict and both answers once more, written for speed: sets are words,
//! what was met is looked up by hashing, and nothing is computed twice. The
//! same texts and numbers in, the same numbers and lent buffers out as the
//! proved operations, all refusals included.

mod bits;
mod cover;
mod expression;
mod images;
mod job;
mod links;
mod lists;
mod merge;
mod names;
mod operations;
mod refusal;
mod search;
mod seen;
mod standings;
mod states;
mod subsets;
mod table;
mod verdict;

pub use operations::{find, links, lists, query_automaton, verdict};
pub use subsets::pair_automaton;
