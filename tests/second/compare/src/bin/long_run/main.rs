//! The longer run: random inputs for every operation, each called on the second
//! implementation and on the library, with the returned number and every lent
//! byte compared. Options: `--count N --seed S --from NUMBER`. An input is made
//! from the seed and its own number alone, so that
//! `--seed S --from NUMBER --count 1` meets it again.

mod input;
mod lending;
mod operations;
mod tally;

use input::Input;
use second::options::Options;
use std::collections::BTreeMap;
use tally::Tally;

/// From this many inputs on, a run must have met every refusal.
const FULL_RUN: u64 = 20_000;

/// After so many inputs, how far the run has come is told on standard error.
const PROGRESS: u64 = 500_000;

fn main() {
    let options = Options::read(&["--count", "--seed", "--from"]);
    let (count, seed) = (options.number("--count", FULL_RUN), options.number("--seed", 1));
    let from = options.number("--from", 0);
    println!("long_run: seed {seed}, {count} inputs from number {from} on");
    let operations = operations::all();
    let mut tallies: Vec<Tally> = operations.iter().map(|_| Tally::default()).collect();
    let mut families = BTreeMap::new();
    for number in from..from + count {
        let input = Input::new(seed, number);
        *families.entry(input.family).or_insert(0u64) += 1;
        for (operation, tally) in operations.iter().zip(&mut tallies) {
            match operations::compare(operation, &input) {
                Ok(answer) => tally.count(operation, answer),
                Err(difference) => {
                    println!("difference in {} at number {number}", operation.name);
                    println!("{difference}\n{input}");
                    std::process::exit(1);
                }
            }
        }
        if (number + 1 - from) % PROGRESS == 0 {
            eprintln!("long_run: {} inputs so far", number + 1 - from);
        }
    }

    println!("Job texts");
    for (family, count) in families {
        println!("{count:10} {family}");
    }
    for (operation, tally) in operations.iter().zip(&tallies) {
        print!("{}", tally.told(operation));
        if count >= FULL_RUN {
            tally.assert_all_met(operation);
        }
    }
    println!("long_run: {count} inputs, 0 differences");
}
