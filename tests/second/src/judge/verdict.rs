//! The missed path and the count of pairs.

use super::{is_path_of, lasts, standing, Judge, Path, Rewriting, Standing};
use std::collections::{BTreeMap, BTreeSet};

/// A state alone, or with an occurrence in a list.
type CoverPlace = (usize, Option<(usize, usize)>);

/// What was found out about a verdict that is right on the short paths.
pub struct Judged {
    /// The missed path is longer than the short ones.
    pub beyond: bool,
    /// The pairs of the short paths are all there are.
    pub whole: bool,
}

impl Judge<'_> {
    /// Judges a verdict on the short paths: that no path before the missed one
    /// is missed, that the missed one is, and the count of pairs.
    pub fn verdict(&self, rewriting: &Rewriting, missed: Option<&[usize]>, pairs: usize) -> Result<Judged, String> {
        let mut first = None;
        // Each pair with the length of the shortest path that has it.
        let mut met: BTreeMap<(Standing, BTreeSet<CoverPlace>), usize> = BTreeMap::new();
        for path in &self.paths {
            let places = self.cover_places(path, rewriting);
            let yielded = self.yields(&places, rewriting);
            if yielded && !self.query[path] {
                return Err(format!("{path:?} is yielded, but no query path"));
            }
            if self.query[path] && !yielded && first.is_none() {
                first = Some(path.as_slice());
            }
            let pair = (standing(&self.job.query, path), places);
            met.entry(pair).or_insert(path.len());
        }

        let beyond = missed.is_some_and(|path| path.len() > self.most);
        if first != missed.filter(|_| !beyond) {
            return Err(format!("the first missed path is {first:?}"));
        }
        if let Some(path) = missed {
            self.missed(rewriting, path, beyond)?;
        }
        // No new pair at the greatest length: there is none beyond it.
        let whole = met.values().all(|length| *length < self.most);
        if met.len() > pairs || whole && met.len() != pairs {
            return Err(format!("the short paths have {} pairs", met.len()));
        }
        Ok(Judged { beyond, whole })
    }

    /// That a path is a query path, and no short word yields it.
    fn missed(&self, rewriting: &Rewriting, path: &[usize], beyond: bool) -> Result<(), String> {
        if !is_path_of(&self.job.query, path) {
            return Err(format!("{path:?} is no query path"));
        }
        let mut words = self.short_words().into_iter();
        let yields = |word: &Path| rewriting.accepts(word) && self.spells(word, path);
        match words.find(|word| !beyond && yields(word)) {
            Some(word) => Err(format!("{path:?} is yielded by {word:?}")),
            None => Ok(()),
        }
    }

    /// The cover places that a path reaches.
    fn cover_places(&self, path: &[usize], rewriting: &Rewriting) -> BTreeSet<CoverPlace> {
        let mut places = BTreeSet::new();
        for (front, state) in self.states_of_fronts(path, rewriting) {
            if front == path.len() {
                places.insert((state, None));
                continue;
            }
            for (number, list) in self.job.lists.iter().enumerate() {
                for last in lasts(&list.expr, 1, &path[front..]) {
                    places.insert((state, Some((number, last))));
                }
            }
        }
        places
    }

    fn yields(&self, places: &BTreeSet<CoverPlace>, rewriting: &Rewriting) -> bool {
        let mut places = places.iter();
        places.any(|(state, occurrence)| occurrence.is_none() && rewriting.accepting[*state])
    }

    /// For each front part of a path, by its length, the states of the words
    /// that spell it.
    fn states_of_fronts(&self, path: &[usize], rewriting: &Rewriting) -> BTreeSet<(usize, usize)> {
        let mut met = BTreeSet::from([(0, 0)]);
        let mut waiting = vec![(0, 0)];
        while let Some((front, state)) = waiting.pop() {
            for (list, known) in self.lists.iter().enumerate() {
                for cut in front..=path.len() {
                    let next = (cut, rewriting.next[state][list]);
                    if known[&path[front..cut]] && met.insert(next) {
                        waiting.push(next);
                    }
                }
            }
        }
        met
    }
}
