//! Compares `cezhappu_answer_from_links` and `cezhappu_answer_from_lists` of libserver.a
//! with the second implementation: the returned number and every cell of both
//! lent buffers, which are filled with a pattern first and are as short as may
//! be, longer, or too short. On lists that are exact on the links, the marks of
//! the two are held against each other.
//! Options: `--count N`, how many random jobs, and `--seed S`.

mod comparison;
mod listed;
mod random;
mod tally;

use comparison::Comparison;
use second::options::Options;
use tally::LEAST_JOBS;

fn main() {
    let (count, seed) = Options::read(&["--count", "--seed"]).count_and_seed(LEAST_JOBS);
    println!("compare_answers: seed {seed}, {count} random jobs");
    let mut comparison = Comparison::new(seed);
    comparison.listed();
    comparison.limits();
    comparison.refusals();
    for number in 0..count {
        comparison.random_job(number);
    }
    print!("{}", comparison.tally);
    comparison.tally.assert_floors();
    let inputs = comparison.tally.inputs;
    println!("compare_answers: {inputs} inputs, 0 differences");
}
