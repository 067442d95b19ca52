//! Compares `cezhappu_keep` of libserver.a with the second implementation on
//! generated job texts: the returned number and every byte of the lent output,
//! which is filled with a pattern first and is one byte too short, exactly
//! long enough, or longer. Arguments: a seed and a count of texts.

use second::find_jobs::jobs;
use second::generate::texts;
use second::jobs::{from_the_end, many, text};
use second::keep::KEPT_BYTES;
use second::merge_tally::Merging;
use second::operations::keep;
use second::read::read;
use second::states::States;

/// The least of refusals 9 and 10 each.
const LEAST_OF_A_KIND: usize = 300;
/// The least of tables of a size, and by what merging made of them.
const LEAST_OF_TABLES: usize = 150;

/// Jobs on each side of a limit of states and standings.
fn limits() -> Vec<String> {
    let of_names = |count, lists: &[&str]| text(&["a"], &many(count), lists);
    let mut all = Vec::new();
    all.extend([1, 3, 19, 20, 21, 22].map(|count| of_names(count, &["a", "a?"])));
    all.extend([61, 62, 63, 64].map(|count| of_names(count, &["a"])));
    all.extend([3, 4, 5, 6].map(|places| text(&["a", "b"], &from_the_end(places), &["a", "b", "a|b"])));
    all
}

/// Random jobs on both sides of these limits, and with tables that merging
/// leaves large.
fn near_limits(seed: u64) -> impl Iterator<Item = String> {
    let strata = ["many standings", "many states", "sequences", "slack", "counters", "subsets", "chains"];
    let all = jobs(seed, 15_000).filter(move |sample| strata.contains(&sample.stratum));
    all.map(|sample| sample.text)
}

fn main() {
    let mut arguments = std::env::args().skip(1);
    let mut argument = |otherwise: u64| {
        arguments.next().map_or(otherwise, |text| text.parse().expect("the arguments are a seed and a count"))
    };
    let (seed, count) = (argument(1), argument(80_000) as usize);

    let mut inputs = 0usize;
    let mut told = [0usize; 18];
    let mut merging = Merging::default();
    let generated = texts(seed, count).map(|text| text.bytes);
    let near = limits().into_iter().chain(near_limits(seed)).map(String::into_bytes);
    for text in near.chain(generated) {
        let size = KEPT_BYTES + [0, 1, 7][inputs % 3] - usize::from(inputs % 50 == 49);
        let mut ours: Vec<u8> = (0..size).map(|place| (place % 251) as u8 ^ 0xa5).collect();
        let mut theirs = ours.clone();
        let answer = match keep(&text, &mut ours) {
            Ok(length) => (length as u64) << 32,
            Err(refusal) => u64::from(refusal.number) | u64::from(refusal.line) << 8,
        };
        let number = server::keep(&text, &mut theirs);
        if number != answer || ours != theirs {
            println!("difference after {inputs} equal answers: {}", text.escape_ascii());
            println!("cezhappu_keep: {number:#x}; second: {answer:#x}; same bytes: {}", ours == theirs);
            std::process::exit(1);
        }
        told[(answer & 0xff) as usize] += 1;
        if answer & 0xff == 0 {
            let states = read(&text).ok().and_then(|job| States::of(&job).ok()).expect("a kept job");
            merging.count(states.table.states(), usize::from(theirs[6]) * 256 + usize::from(theirs[7]));
        }
        inputs += 1;
    }
    for (number, times) in told.iter().enumerate().filter(|(_, times)| **times > 0) {
        println!("{} {times}", if number == 0 { "kept".into() } else { format!("refused {number}") });
    }
    print!("{merging}");
    merging.assert_floors(LEAST_OF_TABLES);
    let enough = told[9].min(told[10]) >= LEAST_OF_A_KIND;
    assert!(told[0] > 5_000 && told[8] > 500 && enough, "too few of a kind");
    println!("compare_keep: {inputs} inputs, 0 differences");
}
