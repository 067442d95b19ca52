//! Compares `cezhappu_verdict` of libserver.a with the second
//! implementation: the returned number and every cell of the four lent
//! buffers, which are filled with a pattern first and are as short as may be,
//! longer, or too short. Small jobs are put before an outside judge beside.
//! Options: `--count N`, how many random jobs, and `--seed S`.

mod comparison;
mod listed;
mod random;
mod tally;

use comparison::Comparison;
use second::options::Options;
use tally::LEAST_JOBS;

fn main() {
    let (count, seed) = Options::read(&["--count", "--seed"]).count_and_seed(LEAST_JOBS);
    println!("compare_verdict: seed {seed}, {count} random jobs");
    let mut comparison = Comparison::new(seed);
    comparison.listed();
    comparison.refusals();
    for number in 0..count {
        comparison.random_job(number);
    }
    print!("{}", comparison.tally);
    comparison.tally.assert_floors();
    let inputs = comparison.tally.inputs;
    println!("compare_verdict: {inputs} inputs, 0 differences");
}
