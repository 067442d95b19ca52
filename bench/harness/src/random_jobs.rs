//! Random jobs that Verdict answers, by number of lists and of occurrences in
//! each. They are drawn once and kept in files, since every peer reads them.

use crate::input::{Input, Operation};
use crate::jobs;
use crate::lent::Lent;
use crate::random::Random;
use std::path::{Path, PathBuf};

/// Numbers of lists, and of occurrences in each.
pub const KINDS: [(usize, usize); 10] =
    [(1, 4), (2, 8), (4, 4), (4, 16), (8, 4), (8, 16), (16, 2), (16, 4), (16, 8), (16, 31)];

const JOBS_OF_A_KIND: usize = 20;

fn file(folder: &Path, lists: usize, occurrences: usize, number: usize) -> PathBuf {
    folder.join(format!("random-{lists}-{occurrences}-{number}.job"))
}

/// Draws the jobs of all kinds.
pub fn draw(folder: &Path) {
    for (lists, occurrences) in KINDS {
        let mut random = Random::new((100 * lists + occurrences) as u64);
        for number in 0..JOBS_OF_A_KIND {
            let job = answered(&mut random, lists, occurrences);
            std::fs::write(file(folder, lists, occurrences, number), job).expect("a job's file");
        }
    }
}

pub fn load(folder: &Path, lists: usize, occurrences: usize) -> Vec<String> {
    let files = (0..JOBS_OF_A_KIND).map(|number| file(folder, lists, occurrences, number));
    files.map(|file| std::fs::read_to_string(file).expect("a job's file")).collect()
}

/// The next random job that Verdict answers.
fn answered(random: &mut Random, lists: usize, occurrences: usize) -> String {
    loop {
        let job = jobs::random(random, lists, occurrences);
        if answers(&Input::job(Operation::Verdict, &job)) {
            return job;
        }
    }
}

fn answers(input: &Input) -> bool {
    let Lent { mut table, mut flags, mut path, mut workspace, .. } = Lent::new(input);
    peer::verdict(&input.job, input.allowance, &mut table, &mut flags, &mut path, &mut workspace) & 0xff == 0
}
