//! Times: the median of several runs of a case, ours and the peer's by turns.
//! The buffers are filled again between the calls, outside of what is timed.

use crate::clock::timed;
use crate::input::{Case, Input};
use crate::lent::Lent;
use crate::ours::measured_ours;
use crate::tuned::measured_peer;
use std::time::{Duration, Instant};

/// How long a case is repeated, and how often at least and at most.
const BUDGET: Duration = Duration::from_millis(400);
const LEAST: usize = 5;
const MOST: usize = 2001;

type Measured = extern "Rust" fn(&Input, &mut Lent) -> u64;

fn once(measured: Measured, case: &Case, lent: &mut [Lent]) -> Duration {
    let mut sum = Duration::ZERO;
    for (input, lent) in case.inputs.iter().zip(lent) {
        lent.fill();
        sum += timed(|| {
            std::hint::black_box(measured(input, lent));
        });
    }
    sum
}

fn median(mut times: Vec<Duration>) -> f64 {
    times.sort();
    times[times.len() / 2].as_secs_f64()
}

/// The medians of ours and of the peer in seconds, and the number of runs.
pub fn time(case: &Case) -> ([f64; 2], usize) {
    let mut lent: Vec<Lent> = case.inputs.iter().map(Lent::new).collect();
    let functions: [Measured; 2] = [measured_ours, measured_peer];
    let mut times = [Vec::new(), Vec::new()];
    let begin = Instant::now();
    while times[0].len() < LEAST || (begin.elapsed() < BUDGET && times[0].len() < MOST) {
        for (function, times) in functions.iter().zip(&mut times) {
            times.push(once(*function, case, &mut lent));
        }
    }
    let runs = times[0].len();
    (times.map(median), runs)
}
