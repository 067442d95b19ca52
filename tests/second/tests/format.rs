//! The page on the format of jobs and kept files: its job, both its dumps of
//! the kept file, and what it says of the table.

use second::find::find;
use second::keep::keep;
use second::read::{read, Job};
use second::states::States;

fn page() -> String {
    let path = concat!(env!("CARGO_MANIFEST_DIR"), "/../../docs/FORMAT.md");
    std::fs::read_to_string(path).expect("the page on the format")
}

/// What stands in the page's block of a kind.
fn block(kind: &str) -> String {
    let page = page();
    let open = format!("\n```{kind}\n");
    let (_, after) = page.split_once(&open).expect("a block of this kind");
    let (inside, after) = after.split_once("```").expect("the block's end");
    assert!(!after.contains(&open), "two blocks of {kind}");
    inside.to_string()
}

fn job() -> Job {
    read(block("job").as_bytes()).expect("a right job")
}

fn kept() -> Vec<u8> {
    let (mut bytes, length) = keep(&job()).expect("it is kept");
    bytes.truncate(length);
    bytes
}

#[test]
fn job_is_the_example() {
    assert_eq!(block("job"), second::cases::EXAMPLE);
}

/// The dump, written anew from the kept bytes.
#[test]
fn dump_of_the_kept_file() {
    let mut dump = String::new();
    for (row, bytes) in kept().chunks(16).enumerate() {
        let mut hex = String::new();
        for (place, byte) in bytes.iter().enumerate() {
            hex += if place == 8 { "  " } else { " " };
            hex += &format!("{byte:02x}");
        }
        let letter = |byte: &u8| match byte {
            b' '..=b'~' => *byte as char,
            _ => '.',
        };
        let letters: String = bytes.iter().map(letter).collect();
        dump += &format!("{:08x} {hex:49}  |{letters}|\n", 16 * row);
    }
    assert_eq!(block("dump"), dump);
    assert!(page().contains(&format!("{} bytes. As a dump", kept().len())));
}

#[test]
fn parts_of_the_kept_file() {
    let mut bytes = Vec::new();
    for line in block("parts").lines() {
        let (place, rest) = line.trim_start().split_once("  ").expect(line);
        let (hex, meaning) = rest.split_once("  ").expect(line);
        assert_eq!(place.parse(), Ok(bytes.len()), "{line}");
        let part = hex.split(' ').map(|byte| u8::from_str_radix(byte, 16));
        let part: Vec<u8> = part.collect::<Result<_, _>>().expect(line);
        if let Some((_, name)) = meaning.split_once("name: ") {
            assert_eq!(name.as_bytes(), &part[1..], "{line}");
        }
        if meaning.starts_with("state") {
            let of_state = |text: &str| text.trim_end_matches([':', ';', ',']).parse().ok();
            let numbers: Vec<u8> = meaning.split(' ').filter_map(of_state).collect();
            assert_eq!(numbers[1..], [part[0], part[2], part[4]], "{line}");
        }
        bytes.extend(part);
    }
    assert_eq!(bytes, kept());
}

/// The words that the page follows by hand, with their states and flags.
#[test]
fn words_followed_by_hand() {
    let table = find(&job()).expect("it answers").table;
    for (word, states, accepted) in [
        (vec![0, 1], vec![1, 3], true),
        (vec![0], vec![1], false),
        (vec![0, 1, 1], vec![1, 3, 2], false),
        (vec![], vec![], false),
    ] {
        let mut state = 0;
        for (list, right) in word.iter().zip(&states) {
            state = table.next[state][*list];
            assert_eq!(state, *right);
        }
        assert_eq!(table.accepting[state], accepted);
    }
    assert_eq!(table.next[2], [2, 2]);
}

/// What the page says of sets of standings that share a state.
#[test]
fn sets_that_share_a_state() {
    let states = |job: &Job| States::of(job).expect("it answers").table;
    assert_eq!(states(&job()), find(&job()).expect("it answers").table);
    let text = block("job").replace("(mix|master)\n", "(mix|master)*\n");
    let other = read(text.as_bytes()).expect("a right job");
    let (one, two) = ([0], [0, 1]);
    let (before, after) = (states(&other), find(&other).expect("it answers").table);
    assert_ne!(before.follow(&one), before.follow(&two));
    assert_eq!(after.follow(&one), after.follow(&two));
}
