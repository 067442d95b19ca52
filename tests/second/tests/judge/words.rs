//! Standings after short paths, and short list words.

use crate::tally::Tally;
use crate::{rewriting, Judged};
use second::automaton::Automaton;
use second::find::Found;
use second::judge::{standing, Path, Reached, Standing, MOST_NAMES};
use second::states::States;
use std::collections::{BTreeMap, BTreeSet};

/// The standings after short paths, each with the least length leading to it.
pub fn judge_standings(judged: &Judged) -> BTreeMap<BTreeSet<usize>, usize> {
    let (job, text) = (judged.job(), judged.text);
    let automaton = Automaton::new(&job.query);
    let mut standings = BTreeMap::new();
    for path in &judged.judge.paths {
        let right = standing(&job.query, path);
        let start = automaton.start();
        let given = path.iter().fold(start, |s, label| automaton.after(&s, *label));
        assert_eq!(given, right, "{path:?} in {text}");
        let is_query_path = judged.judge.query[path];
        assert_eq!(automaton.accepts(&given), is_query_path, "{path:?} in {text}");
        standings.entry(right).or_insert(path.len());
    }
    standings
}

/// Short words: their states, whether they are accepted, and the first.
pub fn judge_words(judged: &Judged, states: &States, found: &Found, tally: &mut Tally) {
    let text = judged.text;
    let words = judged.judge.words(&rewriting(found));
    let words = words.unwrap_or_else(|wrong| panic!("{wrong} in {text}"));
    tally.words_accepted += words.accepted;
    tally.words_refuted += words.refuted;
    tally.words_open += words.open;
    judge_states(states, &words.standings, text);
    judge_first(found, words.first, text, tally);
}

/// Before merging, two words have one state exactly if their standings are the
/// same.
fn judge_states(states: &States, words: &[Reached], text: &str) {
    let mut state_of: BTreeMap<&BTreeSet<Standing>, usize> = BTreeMap::new();
    for Reached { word, standings, whole } in words {
        let state = states.table.follow(word);
        let all = states.sets[state].len();
        assert!(standings.len() == all || standings.len() < all && !whole, "{text}");
        if *whole {
            assert_eq!(*state_of.entry(standings).or_insert(state), state, "{word:?} in {text}");
        }
    }
    let distinct: BTreeSet<usize> = state_of.values().copied().collect();
    assert_eq!(distinct.len(), state_of.len(), "{text}");
}

/// The first word, by the first short one that is accepted.
fn judge_first(found: &Found, first: Option<Path>, text: &str, tally: &mut Tally) {
    match (&first, &found.first) {
        (Some(_), given) => {
            assert_eq!(*given, first, "{text}");
            tally.first_of_names += usize::from(first != Some(Vec::new()));
        }
        (None, Some(given)) => assert!(given.len() > MOST_NAMES, "{text}"),
        (None, None) => {
            assert!(!found.table.accepting.contains(&true), "{text}");
            tally.no_word += 1;
        }
    }
}
