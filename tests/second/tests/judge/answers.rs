//! Both answers, on small random tables.

use crate::relations::{by_length, led_to, random_links, relation};
use crate::tally::Tally;
use crate::Judged;
use second::answer::{exact_lists, from_links, from_lists};
use second::find::Found;
use second::generate::Random;
use second::graphs::{table, Links};
use std::collections::BTreeSet;

fn marked(marks: &[bool]) -> BTreeSet<usize> {
    (0..marks.len()).filter(|place| marks[*place]).collect()
}

pub fn judge_answers(judged: &Judged, found: &Found, complete: bool, random: &mut Random, tally: &mut Tally) {
    let (job, text) = (judged.job(), judged.text);
    let recordings = random.between(1, 5);
    let links = random_links(random, recordings, job.labels.len());
    judge_links(judged, recordings, &links, tally);

    let mut exact = Links::new();
    for (number, list) in job.lists.iter().enumerate() {
        for (x, y) in relation(&list.expr, recordings, &links) {
            exact.insert((x, number, y));
        }
    }
    assert_eq!(exact_lists(job, recordings, &table(&links)), table(&exact), "{links:?} in {text}");

    let other = random_links(random, recordings, job.lists.len());
    for start in 0..recordings {
        for lists in [&exact, &other] {
            judge_lists(judged, found, recordings, lists, start, tally);
        }
        // Exact lists: no mark that the links do not give, and all of them
        // if the verdict is complete.
        let of_lists = from_lists(job, recordings, &table(&exact), start).expect(text);
        let of_links = from_links(job, recordings, &table(&links), 0, start).expect(text);
        let (fewer, all) = (marked(&of_lists.marks), marked(&of_links.marks));
        assert!(fewer.is_subset(&all), "{links:?} in {text}");
        assert!(!complete || fewer == all, "{links:?} in {text}");
        tally.answers_alike += usize::from(fewer == all && !all.is_empty());
        tally.answers_less += usize::from(fewer != all);
    }
}

/// Each expression, from each start: marks where its relation leads.
fn judge_links(judged: &Judged, recordings: usize, links: &Links, tally: &mut Tally) {
    let (job, text) = (judged.job(), judged.text);
    let mut exprs = vec![&job.query];
    exprs.extend(job.lists.iter().map(|list| &list.expr));
    for (chosen, expr) in exprs.iter().enumerate() {
        let relation = relation(expr, recordings, links);
        for start in 0..recordings {
            let given = from_links(job, recordings, &table(links), chosen, start);
            let given = given.unwrap_or_else(|number| panic!("{number}: {text}"));
            let from_start = relation.iter().filter(|(x, _)| *x == start);
            let right: BTreeSet<usize> = from_start.map(|(_, y)| *y).collect();
            assert_eq!(marked(&given.marks), right, "{links:?} in {text}");
            assert_eq!(given.number, right.len());
            tally.marks_of_links += right.len();
        }
    }
}

/// Any list table: marks where an accepted word leads.
fn judge_lists(judged: &Judged, found: &Found, recordings: usize, lists: &Links, start: usize, tally: &mut Tally) {
    let (job, text) = (judged.job(), judged.text);
    let given = from_lists(job, recordings, &table(lists), start).expect(text);
    let marks = marked(&given.marks);
    assert_eq!(given.number, marks.len());
    let mut short = BTreeSet::new();
    for word in judged.judge.short_words() {
        if found.table.accepts(&word) {
            short.extend(led_to(&word, start, lists));
        }
    }
    assert!(short.is_subset(&marks), "{lists:?} in {text}");
    assert_eq!(marks, by_length(&found.table, recordings, start, lists), "{text}");
    tally.marks_of_lists += marks.len();
}
