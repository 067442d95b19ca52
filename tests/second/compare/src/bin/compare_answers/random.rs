//! Random jobs on random tables.

use crate::comparison::{Asked, Comparison, MOST_MORE};
use second::answer::{exact_lists_within, MOST_LINKS};
use second::generate::{random_text, Random};
use second::graphs::{table, Fault, Links, Shape};
use second::kinds::Kind;
use second::operations::MOST_ALLOWANCE;
use second::read::{read, Job};
use second::verdict::verdict;

/// The kind of a job, by its number.
fn kind(number: usize) -> Kind {
    match number % 20 {
        0..=5 => Kind::Small,
        6 => Kind::Large,
        7..=11 => Kind::OfLists,
        12 => Kind::States,
        13..=14 => Kind::BesideLists,
        15..=16 => Kind::ListDropped,
        17 => Kind::Wide,
        18 => Kind::Far,
        _ => Kind::Right,
    }
}

fn shape(random: &mut Random) -> Shape {
    match random.below(100) {
        0..=29 => Shape::Sparse,
        30..=44 => Shape::Dense,
        45..=59 => Shape::Cycle,
        60..=74 => Shape::SelfLinks,
        75..=87 => Shape::Row,
        88..=95 => Shape::One,
        96..=97 => Shape::Wide,
        _ => Shape::Full,
    }
}

/// A job with its recordings and links.
struct Setting {
    text: Vec<u8>,
    job: Job,
    recordings: usize,
    links: Links,
    table: Vec<u16>,
    start: usize,
}

impl Setting {
    fn draw(random: &mut Random, number: usize) -> (Shape, Setting) {
        let text = kind(number).text(random);
        let job = read(&text).expect("a right job");
        let shape = shape(random);
        let recordings = shape.recordings(random);
        let links = shape.links(random, recordings, job.labels.len());
        let setting = Setting { table: table(&links), start: random.below(recordings), text, job, recordings, links };
        (shape, setting)
    }

    fn of_links(&self, chosen: usize) -> Asked<'_> {
        Asked {
            text: &self.text,
            recordings: self.recordings as u64,
            chosen: Some(chosen as u64),
            table: &self.table,
            start: self.start as u64,
        }
    }

    fn of_lists<'a>(&'a self, lists: &'a [u16]) -> Asked<'a> {
        Asked { chosen: None, table: lists, ..self.of_links(0) }
    }
}

impl Comparison {
    /// Compares on a random job with random links: all answers from links, the
    /// answer from exact lists, that from any lists, and bad tables.
    pub fn random_job(&mut self, number: usize) {
        let (shape, setting) = Setting::draw(&mut self.random, number);
        self.tally.job(kind(number), shape, &setting.links);
        let all = self.marks(setting.of_links(0));
        let exact = exact_lists_within(&setting.job, setting.recordings, &setting.table, MOST_LINKS);
        self.tally.too_many_exact += usize::from(exact.is_none());
        if let Some(exact) = exact {
            self.lists_by_links(&setting, &exact);
            self.exact_lists(&setting, &exact, all);
        }

        let lists = setting.job.lists.len();
        let shape = if setting.recordings > 300 { Shape::Sparse } else { shape };
        let any = shape.links(&mut self.random, setting.recordings, lists);
        if self.marks(setting.of_lists(&table(&any))).is_some() {
            self.tally.states(&setting.job);
        }
        self.faulty(&setting, &any, number);
        if number % 5 == 0 {
            self.spoiled(&setting);
        }
    }

    /// Compares with buffers of any length that is enough; tells the marks.
    fn marks(&mut self, asked: Asked) -> Option<Vec<u8>> {
        let mut lengths = asked.least();
        if self.random.one_in(3) {
            lengths = lengths.map(|length| length + self.random.below(MOST_MORE + 1));
        }
        self.compare(asked, lengths).ok()?;
        Some(self.marks.theirs()[..asked.recordings as usize].to_vec())
    }

    /// From the start, the links lead by a list's expression where the exact
    /// lists say.
    fn lists_by_links(&mut self, setting: &Setting, exact: &[u16]) {
        for list in 0..setting.job.lists.len().min(4) {
            let asked = setting.of_links(1 + list);
            let Some(marks) = self.marks(asked) else {
                continue;
            };
            let mut right = vec![0; setting.recordings];
            for triple in exact.chunks(3) {
                if triple[..2] == [setting.start as u16, list as u16] {
                    right[triple[2] as usize] = 1;
                }
            }
            if marks != right {
                let ones = right.iter().filter(|mark| **mark == 1).count();
                self.both_wrong(asked, &Ok(ones), format!("exact lists: {exact:?}"));
            }
        }
    }

    /// The marks from exact lists lie within those from links, and are the same
    /// if the verdict is complete.
    fn exact_lists(&mut self, setting: &Setting, exact: &[u16], all: Option<Vec<u8>>) {
        let asked = setting.of_lists(exact);
        let (Some(fewer), Some(all)) = (self.marks(asked), all) else {
            return;
        };
        let complete = verdict(&setting.job, MOST_ALLOWANCE).is_ok_and(|v| v.missed.is_none());
        let within = fewer.iter().zip(&all).all(|(few, all)| few <= all);
        if !within || complete && fewer != all {
            let wrong = format!("complete: {complete}, marks {fewer:?}, from links {all:?}");
            let ones = fewer.iter().filter(|mark| **mark == 1).count();
            self.both_wrong(asked, &Ok(ones), wrong);
        }
        self.tally.held(&fewer, &all, complete);
    }

    /// Tables with a fault, from links and from lists.
    fn faulty(&mut self, setting: &Setting, lists: &Links, number: usize) {
        let which = number % Fault::ALL.len();
        let fault = Fault::ALL[which];
        let (recordings, job) = (setting.recordings, &setting.job);
        let random = &mut self.random;
        let bad_links = fault.put(random, &setting.links, recordings, job.labels.len());
        let bad_lists = fault.put(random, lists, recordings, job.lists.len());
        if let Some(table) = bad_links {
            let asked = Asked { table: &table, ..setting.of_links(0) };
            self.refused(asked, asked.least(), 15, 0);
            self.tally.faults[which] += 1;
        }
        if let Some(table) = bad_lists {
            let asked = setting.of_lists(&table);
            self.refused(asked, asked.least(), 15, 0);
            self.tally.faults[which] += 1;
        }
    }

    /// An expression, a start, a count or a buffer that is refused; and a text
    /// that Read may refuse.
    fn spoiled(&mut self, setting: &Setting) {
        let lists = setting.job.lists.len();
        let absent = 1 + lists + self.random.below(20);
        let chosen = self.random.below(1 + lists);
        let text = random_text(&mut self.random).bytes;
        let links = setting.of_links(chosen);
        let absent = setting.of_links(absent);
        self.refused(absent, absent.least(), 17, 0);
        for asked in [links, setting.of_lists(&[])] {
            let recordings = asked.recordings;
            let least = asked.least();
            let start = recordings + self.random.below(9) as u64;
            self.refused(Asked { start, ..asked }, least, 16, 0);
            self.refused(asked, [least[0] - 1, least[1]], 8, 0);
            self.refused(asked, [least[0], least[1] - 1], 8, 0);
            let outside = *self.random.pick(&[0, 4097, 1 << 16 | recordings, 1 << 32 | recordings]);
            let asked = Asked { recordings: outside, ..asked };
            self.refused(asked, least, 14, 0);
            let asked = Asked { text: &text, recordings, ..asked };
            let _ = self.compare(asked, least);
        }
    }
}
