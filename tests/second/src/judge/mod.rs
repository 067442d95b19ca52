//! An outside judge of small jobs: a backtracking matcher, short paths and
//! short list words enumerated, no automaton of any expression. Only the table
//! of a rewriting is followed, after it has been judged on the short words.

mod matcher;
mod rewriting;
mod verdict;
mod words;

pub use matcher::{beginnings, is_path_of, lasts, longest, occurrences, offsets, sequences, standing};
pub use rewriting::Rewriting;
pub use verdict::Judged;
pub use words::{Reached, Words};

use crate::read::{Expr, Job};
use std::collections::{BTreeSet, HashMap};

/// The most names of a list word that is enumerated.
pub const MOST_NAMES: usize = 3;

pub type Path = Vec<usize>;

/// A set of label occurrences, or the start alone.
pub type Standing = BTreeSet<usize>;

/// Short paths of a job, with what the matcher says of them.
pub struct Judge<'a> {
    pub job: &'a Job,
    /// The length of the longest paths enumerated.
    pub most: usize,
    pub paths: Vec<Path>,
    pub query: HashMap<Path, bool>,
    lists: Vec<HashMap<Path, bool>>,
}

impl Judge<'_> {
    pub fn new(job: &Job) -> Judge<'_> {
        let most = match job.labels.len() {
            1 => 10,
            2 => 6,
            _ => 4,
        };
        let paths = sequences(job.labels.len(), most);
        let ask = |expr: &Expr| -> HashMap<Path, bool> {
            let each = paths.iter();
            each.map(|path| (path.clone(), is_path_of(expr, path))).collect()
        };
        Judge {
            job,
            most,
            query: ask(&job.query),
            lists: job.lists.iter().map(|list| ask(&list.expr)).collect(),
            paths,
        }
    }

    /// All list words of few names, in the order in which states are numbered.
    pub fn short_words(&self) -> Vec<Path> {
        sequences(self.job.lists.len(), MOST_NAMES)
    }

    pub fn spells(&self, word: &[usize], path: &[usize]) -> bool {
        match word.split_first() {
            None => path.is_empty(),
            Some((list, others)) => {
                (0..=path.len()).any(|cut| self.lists[*list][&path[..cut]] && self.spells(others, &path[cut..]))
            }
        }
    }

    /// The short paths that a word spells, and whether there are no others.
    fn spelled(&self, word: &[usize]) -> (Vec<&Path>, bool) {
        let each = self.paths.iter();
        let longest = word.iter().try_fold(0, |sum, list| Some(sum + longest(&self.job.lists[*list].expr)?));
        let whole = longest.is_some_and(|length| length <= self.most);
        (each.filter(|path| self.spells(word, path)).collect(), whole)
    }
}
