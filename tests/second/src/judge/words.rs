//! Short list words: their states, and whether they are accepted.

use super::{standing, Judge, Path, Rewriting, Standing};
use std::collections::{BTreeSet, HashMap};

/// What was found out about the short list words.
#[derive(Default)]
pub struct Words {
    /// Accepted, with no short path that is not a query path.
    pub accepted: usize,
    /// Not accepted, with such a path.
    pub refuted: usize,
    /// Not accepted, without such a path: a longer one must show why.
    pub open: usize,
    /// The first accepted one.
    pub first: Option<Path>,
    /// Each word, with the standings after its short paths.
    pub standings: Vec<Reached>,
}

/// Where the short paths of a list word lead.
pub struct Reached {
    pub word: Path,
    pub standings: BTreeSet<Standing>,
    /// Whether the word spells no other paths.
    pub whole: bool,
}

impl Judge<'_> {
    /// Judges the rewriting on the short words: the order of the states, that
    /// words with the same standings have one state, and which are accepted.
    /// That is all there is to say of too few states; of too many, that each
    /// two are told apart by some word.
    pub fn words(&self, rewriting: &Rewriting) -> Result<Words, String> {
        let mut words = Words::default();
        let mut known = 0;
        let mut state_of: HashMap<BTreeSet<Standing>, usize> = HashMap::new();
        for word in self.short_words() {
            let state = rewriting.state(&word);
            if state > known {
                return Err(format!("state {state} of {word:?} is out of order"));
            }
            known = known.max(state + 1);
            let (spelled, whole) = self.spelled(&word);
            self.accepted(rewriting.accepting[state], &word, &spelled, whole, &mut words)?;

            let standings = spelled.iter().map(|path| standing(&self.job.query, path));
            let standings: BTreeSet<Standing> = standings.collect();
            if whole && *state_of.entry(standings.clone()).or_insert(state) != state {
                return Err(format!("{word:?} has not the state of its standings"));
            }
            words.standings.push(Reached { word, standings, whole });
        }
        match rewriting.alike() {
            Some((one, other)) => Err(format!("no word tells state {one} from state {other}")),
            None => Ok(words),
        }
    }

    /// Judges whether a word is rightly accepted or not.
    fn accepted(
        &self,
        accepted: bool,
        word: &[usize],
        spelled: &[&Path],
        whole: bool,
        words: &mut Words,
    ) -> Result<(), String> {
        if accepted && words.first.is_none() {
            words.first = Some(word.to_vec());
        }
        let refuting = spelled.iter().find(|path| !self.query[**path]);
        match (accepted, refuting) {
            (true, None) => words.accepted += 1,
            (false, Some(_)) => words.refuted += 1,
            (false, None) if !whole => words.open += 1,
            (false, None) => return Err(format!("{word:?} is sound, but not accepted")),
            (true, Some(path)) => return Err(format!("{word:?} is accepted, but spells {path:?}")),
        }
        Ok(())
    }
}
