//! Random jobs, and the outside judge of the small ones.

use crate::comparison::{least, Comparison, MOST_MORE};
use crate::tally::ALLOWANCES;
use second::generate::{random_text, Random};
use second::judge::{Judge, Rewriting};
use second::kinds::{with_pairs, Kind};
use second::operations::MOST_ALLOWANCE;
use second::read::{read, Job, Refusal};
use second::verdict::{verdict, Verdict};

/// One in so many small jobs is judged.
const JUDGED: usize = 4;

/// Most jobs have no more pairs than this: both sides need long for many.
const MOST_USUAL_PAIRS: usize = 400;

/// What a random job is made for, by its number.
#[derive(Clone, Copy)]
enum Made {
    Of(Kind),
    WithPairs(usize, usize),
}

fn made(number: usize) -> Made {
    match number % 100 {
        0..=45 => Made::Of(Kind::Small),
        46..=48 => Made::Of(Kind::Large),
        49 => Made::Of(Kind::Long),
        50..=62 => Made::Of(Kind::OfLists),
        63..=76 => Made::Of(Kind::BesideLists),
        77..=86 => Made::Of(Kind::ListDropped),
        87..=88 => Made::Of(Kind::Wide),
        89..=92 => Made::Of(Kind::Places),
        93..=94 => Made::Of(Kind::States),
        95..=96 => Made::Of(Kind::Pairs),
        97..=98 => Made::Of(Kind::Far),
        _ if number % 4000 == 1999 => Made::WithPairs(1500, MOST_ALLOWANCE),
        _ if number % 4000 == 3999 => Made::WithPairs(MOST_ALLOWANCE + 1, MOST_ALLOWANCE + 1),
        _ => Made::Of(Kind::Right),
    }
}

/// A random job with its exact verdict.
struct Drawn {
    text: Vec<u8>,
    job: Job,
    exact: Result<Verdict, u8>,
}

impl Drawn {
    fn draw(random: &mut Random, made: Made) -> Drawn {
        loop {
            let text = match made {
                Made::Of(kind) => kind.text(random),
                Made::WithPairs(low, high) => with_pairs(random, low, high),
            };
            let job = read(&text).expect("a right job");
            let exact = verdict(&job, MOST_ALLOWANCE);
            let many = match &exact {
                Ok(exact) => exact.pairs > MOST_USUAL_PAIRS,
                Err(number) => *number == 13,
            };
            let any = matches!(made, Made::Of(Kind::Pairs | Kind::Right) | Made::WithPairs(..));
            if any || !many {
                return Drawn { text, job, exact };
            }
        }
    }
}

impl Comparison {
    /// Compares on a random job with all its allowances.
    pub fn random_job(&mut self, number: usize) {
        let made = made(number);
        let Drawn { text, job, exact } = Drawn::draw(&mut self.random, made);
        // The exact verdict tells what every allowance gives.
        let decide = |_: &Job, allowance: usize| match &exact {
            Ok(exact) if exact.pairs > allowance => Err(13),
            _ => exact.clone(),
        };
        let mut allowances = ALLOWANCES.to_vec();
        if let Ok(exact) = &exact {
            allowances.extend([exact.pairs - 1, exact.pairs]);
        }
        for (which, allowance) in allowances.into_iter().enumerate() {
            let mut lengths = least(allowance);
            if self.random.one_in(3) {
                lengths = lengths.map(|length| length + self.random.below(MOST_MORE + 1));
            }
            let told = self.compare_by(decide, &text, allowance as u64, lengths);
            if told.is_err_and(|refusal| refusal.number == 13) {
                self.tally.over[which] += 1;
            }
        }
        let kind = match made {
            Made::Of(kind) => Some(kind),
            Made::WithPairs(..) => None,
        };
        self.tally.job(kind, &job, &exact);
        if number % 10 == 9 {
            self.spoiled(&text);
        }
        if kind == Some(Kind::Small) && number % JUDGED == 0 {
            self.judged(&text, &job, exact);
        }
    }

    /// A job with a buffer too short and with an allowance out of range; and a
    /// text that Read may refuse.
    fn spoiled(&mut self, text: &[u8]) {
        let no_line = |number| Refusal { number, line: 0 };
        let allowance = self.random.between(1, 200);
        let mut lengths = least(allowance).map(|length| length + self.random.below(2));
        let buffer = self.random.below(lengths.len());
        lengths[buffer] = least(allowance)[buffer] - 1;
        self.refused(text, allowance as u64, lengths, no_line(8));
        let outside = *self.random.pick(&[0, 4097, 1 << 16 | 128, 1 << 32 | 128]);
        self.refused(text, outside, least(128), no_line(11));

        let text = random_text(&mut self.random);
        if text.expected != Some((0, 0)) {
            let allowance = *self.random.pick(&ALLOWANCES);
            let _ = self.compare(&text.bytes, allowance as u64, least(allowance));
        }
    }

    /// Puts what both told of a job before the judge.
    fn judged(&mut self, text: &[u8], job: &Job, exact: Result<Verdict, u8>) {
        let Ok(exact) = exact else { return };
        let (missed, pairs) = (&exact.missed, exact.pairs);
        let decide = |_: &Job, _: usize| Ok(exact.clone());
        let told = self.compare_by(decide, text, pairs as u64, least(pairs));
        let lists = job.lists.len();
        let rewriting = Rewriting::lent(self.table.theirs(), self.flags.theirs(), lists);

        let judge = Judge::new(job);
        let words = judge.words(&rewriting);
        let judged = judge.verdict(&rewriting, missed.as_deref(), pairs);
        match (words, judged) {
            (Ok(words), Ok(judged)) => {
                let tally = &mut self.tally;
                tally.judged += 1;
                tally.judged_words += words.accepted + words.refuted;
                tally.judged_whole += usize::from(judged.whole);
                tally.judged_complete += usize::from(judged.whole && missed.is_none());
                tally.judged_missed += usize::from(missed.is_some() && !judged.beyond);
            }
            (words, judged) => {
                let wrong = [words.err(), judged.err()].into_iter().flatten();
                let wrong = wrong.map(|wrong| format!("judge: {wrong}")).collect();
                self.both_wrong(text, pairs, &told, wrong);
            }
        }
    }
}
