//! A second implementation of the operations on job texts, written from the
//! scope document alone, with a generator of texts to compare another
//! implementation on.

pub mod answer;
pub mod automaton;
pub mod cases;
pub mod conditions;
pub mod counts;
pub mod cover;
pub mod explore;
pub mod faults;
pub mod find;
pub mod find_jobs;
pub mod generate;
pub mod graphs;
pub mod jobs;
pub mod judge;
pub mod keep;
pub mod kinds;
pub mod large;
pub mod lent;
pub mod merge;
pub mod merge_tally;
pub mod operations;
pub mod options;
pub mod print;
pub mod read;
pub mod states;
pub mod table;
pub mod tally;
pub mod turn;
pub mod verdict;
