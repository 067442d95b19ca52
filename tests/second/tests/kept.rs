//! Kept files from before states were merged: each is the kept file of its
//! job's states before merging, and its table accepts the words that the
//! merged one accepts.

use second::find::find;
use second::judge::sequences;
use second::keep::{keep, kept_file};
use second::read::{read, Job};
use second::states::States;
use second::table::Table;
use std::collections::BTreeSet;
use std::path::PathBuf;

/// At most so many list words of a job are followed.
const MOST_WORDS: usize = 100_000;

fn folder() -> PathBuf {
    PathBuf::from(env!("CARGO_MANIFEST_DIR")).join("../kept")
}

fn bytes(name: &str) -> Vec<u8> {
    std::fs::read(folder().join(name)).unwrap_or_else(|error| panic!("{name}: {error}"))
}

/// The names of the files that end so, without that end.
fn names(end: &str) -> BTreeSet<String> {
    let files = std::fs::read_dir(folder()).expect("a folder of kept files");
    let names = files.map(|file| file.unwrap().file_name().into_string().unwrap());
    names.filter_map(|name| name.strip_suffix(end).map(str::to_string)).collect()
}

/// Each kept file with its job.
fn kept() -> Vec<(String, Job, Vec<u8>)> {
    let jobs = names(".job");
    assert_eq!(jobs.len(), 20);
    assert_eq!(jobs, names(".lrw"));
    let each = jobs.into_iter().map(|name| {
        let job = read(&bytes(&format!("{name}.job"))).expect("a right job");
        let file = bytes(&format!("{name}.lrw"));
        (name, job, file)
    });
    each.collect()
}

/// The table of a kept file, read as the format's page says.
fn opened(file: &[u8]) -> Table {
    assert_eq!(file[..5], *b"LRW\x00\x01");
    let (lists, states) = (file[5] as usize, usize::from(file[6]) * 256 + usize::from(file[7]));
    let mut rest = &file[8..];
    for _ in 0..lists {
        rest = &rest[1 + rest[0] as usize..];
    }
    assert_eq!(rest.len(), states * (1 + 2 * lists));
    let rows = rest.chunks(1 + 2 * lists);
    let next = |row: &[u8]| row[1..].chunks(2).map(|two| usize::from(two[0]) * 256 + usize::from(two[1])).collect();
    Table { accepting: rows.clone().map(|row| row[0] == 1).collect(), next: rows.map(next).collect() }
}

#[test]
fn as_the_states_before_merging() {
    for (name, job, file) in kept() {
        let states = States::of(&job).expect("it answers");
        assert_eq!(file, kept_file(&job, &states.table), "{name}");
        assert_eq!(opened(&file), states.table, "{name}");
    }
}

/// The same words are accepted by the merged table, which has no more states.
#[test]
fn merged_accepts_the_same_words() {
    let mut fewer = 0;
    for (name, job, file) in kept() {
        let (old, new) = (opened(&file), find(&job).expect("it answers").table);
        assert!(new.states() <= old.states(), "{name}");
        assert!(new.accepts_as(&old), "{name}");
        fewer += usize::from(new.states() < old.states());
        let lists = job.lists.len();
        let most = (0..=12).rfind(|most| lists.max(2).pow(*most) <= MOST_WORDS).expect("no word is not too many");
        for word in sequences(lists, most as usize) {
            assert_eq!(old.accepts(&word), new.accepts(&word), "{word:?} in {name}");
        }
    }
    assert!(fewer >= 10, "only {fewer} had states to merge");
}

/// The three that were the reason: they differed, and are now one.
#[test]
fn alike() {
    let all = kept();
    let three: Vec<_> = all.iter().filter(|(name, _, _)| name.starts_with("alike-")).collect();
    assert_eq!(three.len(), 3);
    let before: BTreeSet<_> = three.iter().map(|(_, _, file)| file).collect();
    assert_eq!(before.len(), 3);
    let after: BTreeSet<_> = three.iter().map(|(_, job, _)| keep(job).expect("it is kept")).collect();
    assert_eq!(after.len(), 1);
}
