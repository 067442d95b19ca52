//! The missed path and the pair count.

use crate::tally::Tally;
use crate::{rewriting, Judged};
use second::find::Found;
use second::judge::occurrences;
use second::verdict::verdict;

/// Tells whether the verdict is complete.
pub fn judge_verdict(judged: &Judged, found: &Found, tally: &mut Tally) -> bool {
    let (job, text) = (judged.job(), judged.text);
    let size: usize = job.lists.iter().map(|list| occurrences(&list.expr)).sum();
    let places = found.table.states() * (1 + size);
    let given = match verdict(job, 4096) {
        Ok(given) => given,
        Err(number) => {
            let right = if places > 1024 { 12 } else { 13 };
            assert_eq!(number, right, "{text}");
            tally.refused_12 += usize::from(number == 12);
            tally.refused_13 += usize::from(number == 13);
            return false;
        }
    };
    assert!(places <= 1024, "{text}");
    assert_eq!(given.found, *found);
    if given.pairs > 1 {
        assert_eq!(verdict(job, given.pairs - 1), Err(13), "{text}");
    }
    assert_eq!(verdict(job, given.pairs), Ok(given.clone()), "{text}");

    let short = judged.judge.verdict(&rewriting(found), given.missed.as_deref(), given.pairs);
    let short = short.unwrap_or_else(|wrong| panic!("{wrong} in {text}"));
    match given.missed {
        None => tally.complete += 1,
        Some(_) if short.beyond => tally.missed_beyond += 1,
        Some(_) => tally.missed += 1,
    }
    tally.exact_pair_counts += usize::from(short.whole);
    given.missed.is_none()
}
