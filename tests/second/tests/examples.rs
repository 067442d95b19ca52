//! The files in the repository's folder of examples: each NAME.out is what is
//! printed for NAME.job, and the lists and marks are those of the links.

use second::answer::{exact_lists, from_links, from_lists};
use second::find::find;
use second::keep::keep;
use second::print::printed;
use second::read::{read, Job};
use second::states::States;
use std::collections::BTreeSet;
use std::path::PathBuf;

const RECORDINGS: usize = 10;

fn folder() -> PathBuf {
    PathBuf::from(env!("CARGO_MANIFEST_DIR")).join("../../examples")
}

fn bytes(name: &str) -> Vec<u8> {
    std::fs::read(folder().join(name)).unwrap_or_else(|error| panic!("{name}: {error}"))
}

fn text(name: &str) -> String {
    String::from_utf8(bytes(name)).expect(name)
}

/// The names of the files that end so, without that end.
fn names(end: &str) -> BTreeSet<String> {
    let files = std::fs::read_dir(folder()).expect("a folder of examples");
    let names = files.map(|file| file.unwrap().file_name().into_string().unwrap());
    names.filter_map(|name| name.strip_suffix(end).map(str::to_string)).collect()
}

#[test]
fn every_job_has_its_output() {
    let jobs = names(".job");
    assert!(jobs.len() >= 12, "only {} jobs", jobs.len());
    assert_eq!(jobs, names(".out"));
    let told = text("README.md");
    for name in jobs {
        assert!(told.contains(&format!("| `{name}` |")), "{name} is not told of");
        let out = printed(&bytes(&format!("{name}.job")));
        assert_eq!(text(&format!("{name}.out")), out, "{name}");
    }
}

/// What the page says of the jobs.
#[test]
fn ends_of_the_outputs() {
    for (name, end) in [
        ("mixes", "\nfirst episodes mixes\nmissed episode master\npairs 11\n"),
        ("masters", "\nfirst episodes pressings\ncomplete\npairs 14\n"),
        ("guests", "\nfirst direct\ncomplete\npairs 28\n"),
        ("relay", "\nstates 3\n0 - 1 0 2\n1 + 2 2 1\n2 - 2 2 2\nfirst masters\ncomplete\npairs 14\n"),
        ("relay-short", "\nfirst masters\nmissed master restored\npairs 12\n"),
        ("reissues", "\nfirst\ncomplete\npairs 2\n"),
        ("no-lists", "\nfirst\nmissed remaster\npairs 2\n"),
        ("appearances", "\nempty\nmissed guest episode\npairs 6\n"),
        ("same-names", "\nfirst show mix\ncomplete\npairs 17\n"),
        ("serial", "\nfirst parts parts parts\ncomplete\npairs 6\n"),
        ("edits", "\nfirst mixes cuts cuts cuts\ncomplete\npairs 33\n"),
        ("alike", "query 4\nstates 2\n0 - 1 1 1\n1 + 1 1 1\nfirst reissues\ncomplete\npairs 4\n"),
        ("box-set", "\nfirst parts parts volumes volumes volumes volumes\nrefused 12\n"),
        ("takes", "query 3\nstates 1\n0 + 0\nfirst\nrefused 13\n"),
    ] {
        assert!(text(&format!("{name}.out")).ends_with(end), "{name}");
    }
    for (name, whole) in [
        ("misspelt", "refused 6 line 6\n"),
        ("unfinished", "refused 2 line 3\n"),
        ("two-byte-ends", "refused 3 line 1\n"),
        ("far-back", "refused 9\n"),
        ("long-serial", "refused 10\n"),
    ] {
        assert_eq!(text(&format!("{name}.out")), whole);
    }
}

fn job(name: &str) -> Job {
    read(&bytes(&format!("{name}.job"))).expect("a right job")
}

/// What the page says of states before merging and after.
#[test]
fn merged_states() {
    for (name, before, after) in [("relay", 6, 3), ("serial", 15, 5), ("edits", 82, 16)] {
        let job = job(name);
        assert_eq!(States::of(&job).unwrap().table.states(), before, "{name}");
        assert_eq!(find(&job).unwrap().table.states(), after, "{name}");
    }
    let kept = |text: &str| keep(&read(text.as_bytes()).expect("a right job")).unwrap();
    let roundabout = text("alike.job");
    let plain = roundabout.replace("query reissue|reissue.reissue.reissue*\n", "query reissue.reissue*\n");
    assert_ne!(plain, roundabout);
    assert_eq!(kept(&plain), kept(&roundabout));
}

/// A table of triples, one a line.
fn table(name: &str) -> Vec<u16> {
    let text = text(name);
    let triples = text.lines().map(|line| {
        let numbers: Vec<u16> = line.split(' ').map(|number| number.parse().unwrap()).collect();
        assert_eq!(numbers.len(), 3, "{name}: {line}");
        numbers
    });
    triples.flatten().collect()
}

#[test]
fn lists_are_exact_on_the_links() {
    let links = table("links.txt");
    for (name, lists) in [("mixes", "lists.txt"), ("masters", "masters-lists.txt")] {
        let (job, lists) = (job(name), table(lists));
        assert_eq!(exact_lists(&job, RECORDINGS, &links), lists);
        // By the answers, with each list as the chosen expression.
        for from in 0..RECORDINGS {
            for list in 0..job.lists.len() {
                let marks = from_links(&job, RECORDINGS, &links, 1 + list, from).unwrap().marks;
                for (to, mark) in marks.into_iter().enumerate() {
                    let triple = [from as u16, list as u16, to as u16];
                    assert_eq!(lists.chunks(3).any(|link| link == triple), mark, "{triple:?}");
                }
            }
        }
    }
}

#[test]
fn marks_of_both_answers() {
    let links = table("links.txt");
    for line in text("marks.txt").lines() {
        let words: Vec<&str> = line.split(' ').collect();
        let [name, from, "start", start, "marks", marks @ ..] = &words[..] else {
            panic!("{line}");
        };
        let (job, start) = (job(name), start.parse().unwrap());
        let answer = match (*name, *from) {
            (_, "links") => from_links(&job, RECORDINGS, &links, 0, start),
            ("mixes", "lists") => from_lists(&job, RECORDINGS, &table("lists.txt"), start),
            ("masters", "lists") => from_lists(&job, RECORDINGS, &table("masters-lists.txt"), start),
            _ => panic!("{line}"),
        };
        let right: Vec<bool> = marks.iter().map(|mark| *mark == "1").collect();
        assert_eq!(answer.unwrap().marks, right, "{line}");
    }
}
