//! Jobs near a limit or beyond it: of cover places, of pairs, of standings, of
//! states.

use super::parts::{expression, labels, pieces, row, Parts};
use crate::cover::MOST_PLACES;
use crate::find::find;
use crate::generate::Random;
use crate::judge::{occurrences, offsets};
use crate::large::large;
use crate::read::{read, Job, MOST_OCCURRENCES};
use crate::verdict::verdict;

/// The number of states that Find tells.
fn states(job: &Job) -> Option<usize> {
    find(job).ok().map(|found| found.table.states())
}

/// A job with just as many cover places as there may be with its states, or
/// with one occurrence more. A label occurrence written twice changes no path.
pub fn at_limit_of_places(random: &mut Random) -> Vec<u8> {
    loop {
        let count = random.between(1, 3);
        let labels = labels(random, count);
        let length = random.between(2, 40);
        let query = row(random, &labels, length, 4);
        let mut lists = Vec::new();
        for _ in 0..random.between(1, 5) {
            let length = random.between(1, 3);
            lists.push(row(random, &labels, length, 20));
        }
        let mut parts = Parts { labels, query, lists };
        let job = read(&parts.text()).expect("short rows");
        let Some(states) = states(&job) else { continue };
        let of_list: Vec<usize> = job.lists.iter().map(|list| occurrences(&list.expr)).collect();
        let wanted = MOST_PLACES / states + usize::from(random.one_in(2)) - 1;
        let Some(mut missing) = wanted.checked_sub(of_list.iter().sum()) else {
            continue;
        };
        for (list, here) in parts.lists.iter_mut().zip(of_list) {
            let more = missing.min(MOST_OCCURRENCES - here);
            *list = repeated(random, list, more);
            missing -= more;
        }
        let text = parts.text();
        if missing == 0 && read(&text).is_ok() {
            return text;
        }
    }
}

/// The row with one of its labels written `more` times more.
fn repeated(random: &mut Random, row: &str, more: usize) -> String {
    let mut factors: Vec<String> = row.split('.').map(str::to_string).collect();
    let factor = random.below(factors.len());
    let label = factors[factor].trim_end_matches(['*', '?']).to_string();
    let again = vec![label.as_str(); 1 + more].join("|");
    factors[factor] = factors[factor].replacen(&label, &format!("({again})"), 1);
    factors.join(".")
}

/// A job with over 64 states and no more cover places than there may be.
pub fn many_states(random: &mut Random) -> Vec<u8> {
    loop {
        let text = large(random).into_bytes();
        let job = read(&text).expect("a right job");
        if states(&job).is_some_and(|states| states > 64 && states * offsets(&job) <= MOST_PLACES) {
            return text;
        }
    }
}

/// A job with long lists and no more cover places than there may be. The lists
/// mostly begin differently, so that few of their occurrences are reached by
/// the same paths.
pub fn long_lists(random: &mut Random) -> Vec<u8> {
    loop {
        let count = random.between(2, 3);
        let labels = labels(random, count);
        let mut lists = Vec::new();
        for _ in 0..random.between(4, 9) {
            let length = random.between(10, 28);
            lists.push(row(random, &labels, length, 3));
        }
        let query = match random.below(3) {
            0 => format!("({})*", labels.join("|")),
            1 => format!("({})*", lists[0]),
            _ => format!("({}|{})*", lists[0], lists[1]),
        };
        let text = Parts { labels, query, lists }.text();
        let Ok(job) = read(&text) else { continue };
        if states(&job).is_some_and(|states| states * offsets(&job) <= MOST_PLACES) {
            return text;
        }
    }
}

/// A job whose exact count of pairs lies from `low` to `high`; above 4,096 it
/// need only be above `low`.
pub fn with_pairs(random: &mut Random, low: usize, high: usize) -> Vec<u8> {
    let mut places = (low.ilog2() as usize).saturating_sub(2);
    loop {
        let parts = many_pairs(random, places);
        let text = parts.text();
        let Ok(job) = read(&text) else { continue };
        match verdict(&job, high.max(low)) {
            Ok(verdict) if verdict.pairs >= low => return text,
            Ok(_) => places = (places + 1).min(14),
            Err(13) if low > 4096 => return text,
            Err(13) => places = places.saturating_sub(1).max(1),
            Err(_) => {}
        }
    }
}

/// Lists that ask for a label some places before their end: the sets of cover
/// places are many.
fn many_pairs(random: &mut Random, places: usize) -> Parts {
    let count = random.between(2, 3);
    let labels = labels(random, count);
    let any = format!("({})", labels.join("|"));
    let ending = |random: &mut Random, places: usize| {
        let label = random.pick(&labels).clone();
        let rest: String = (0..places)
            .map(|_| match random.below(12) {
                0 => format!(".{any}?"),
                _ => format!(".{any}"),
            })
            .collect();
        format!("{any}*.{label}{rest}")
    };
    let mut lists = vec![ending(random, places)];
    for _ in 0..random.below(3) {
        let atoms = random.between(1, 2);
        lists.push(expression(random, &labels, atoms, 1));
    }
    let query = match random.below(4) {
        0 => format!("{any}*"),
        1 => {
            let places = random.between(0, 2);
            ending(random, places)
        }
        2 => format!("{any}*.{}", labels[0]),
        _ => {
            let atoms = random.between(1, 3);
            expression(random, &pieces(&lists), atoms, 1)
        }
    };
    Parts { labels, query, lists }
}

/// Over 64 standings, or over 256 states, or near to that.
pub fn far(random: &mut Random) -> Parts {
    let count = random.between(1, 2);
    let labels = labels(random, count);
    let any = format!("({})", labels.join("|"));
    let query = match random.below(4) {
        0 => {
            let places = random.between(4, 8);
            let label = random.pick(&labels);
            format!("{any}*.{label}{}", format!(".{any}").repeat(places))
        }
        1 => {
            let length = random.between(60, 63);
            row(random, &labels, length, 0)
        }
        _ => {
            let length = random.between(18, 30);
            row(random, &labels, length, 1)
        }
    };
    let mut lists = vec![any.clone(), format!("{any}?")];
    for _ in 0..random.below(3) {
        let length = random.between(1, 3);
        lists.push(row(random, &labels, length, 50));
    }
    Parts { labels, query, lists }
}
