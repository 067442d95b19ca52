//! Small random jobs before the outside judge: the standings, the words, the
//! verdict, and the marks by relations.

mod answers;
mod relations;
mod tally;
mod verdicts;
mod words;

use second::find::{find, Found};
use second::generate::Random;
use second::jobs::small;
use second::judge::{Judge, Rewriting};
use second::read::{read, Job};
use second::states::States;
use second::table::Table;
use tally::Tally;

const JOBS: u64 = 600;

/// The judge of a job, with the job's text to tell where a test fails.
struct Judged<'a> {
    judge: Judge<'a>,
    text: &'a str,
}

impl Judged<'_> {
    fn job(&self) -> &Job {
        self.judge.job
    }
}

fn rewriting(found: &Found) -> Rewriting {
    let Table { next, accepting } = found.table.clone();
    Rewriting { next, accepting }
}

#[test]
fn small_random_jobs() {
    let mut tally = Tally::default();
    for seed in 0..JOBS {
        let mut random = Random::new(seed);
        let text = small(&mut random);
        let job = read(text.as_bytes()).unwrap_or_else(|refused| panic!("{refused:?}: {text}"));
        judge(&job, &text, &mut random, &mut tally);
    }
    println!("{tally:#?}");
    tally.assert_floors();
}

fn judge(job: &Job, text: &str, random: &mut Random, tally: &mut Tally) {
    tally.jobs += 1;
    let judged = Judged { judge: Judge::new(job), text };
    let standings = words::judge_standings(&judged);
    let closed = !standings.values().any(|length| *length == judged.judge.most);
    let found = match find(job) {
        Ok(found) => found,
        Err(9) => {
            assert!(!closed || standings.len() > 64, "{text}");
            tally.refused_9 += 1;
            return;
        }
        Err(number) => {
            assert_eq!(number, 10, "{text}");
            tally.refused_10 += 1;
            return;
        }
    };
    assert!(standings.len() <= found.standings, "{text}");
    if closed {
        assert_eq!(standings.len(), found.standings, "{text}");
        tally.exact_standing_counts += 1;
    }
    let states = States::of(job).expect("Find answers");
    tally.merged += usize::from(found.table.states() < states.table.states());
    words::judge_words(&judged, &states, &found, tally);
    let complete = verdicts::judge_verdict(&judged, &found, tally);
    answers::judge_answers(&judged, &found, complete, random, tally);
}
