//! Inputs that grow in one number: links, states before merging, or pairs.

use crate::graphs::table;
use crate::input::{Case, Input, Operation};
use crate::jobs;
use crate::random::Random;

/// A case of a series is named by the series and the number that grows.
pub fn all() -> Vec<Case> {
    let mut cases = Vec::new();
    for links in (1..=8).map(|part| 2048 * part) {
        cases.push(links_case("links-example", &jobs::example(), 3, links));
        cases.push(links_case("links-standings", &jobs::from_the_end(), 2, links));
    }
    for count in (2..=20).step_by(3) {
        let states = (count + 2) * (count + 3) / 2;
        cases.push(case("states", states, Input::job(Operation::Find, &jobs::optional(count))));
    }
    for count in 4..=10 {
        let pairs = (2 << count) + 1;
        cases.push(case("pairs", pairs, Input::job(Operation::Verdict, &jobs::doubling(count))));
    }
    cases
}

fn case(series: &str, number: usize, input: Input) -> Case {
    Case { counted: true, ..Case::new(&format!("{series}\t{number}"), series, vec![input]) }
}

/// 4,096 recordings; the links, four from each, are between the first ones.
fn links_case(series: &str, job: &str, labels: usize, links: usize) -> Case {
    let table = table(&mut Random::new(links as u64), links / 4, links, labels);
    case(series, links, Input { recordings: 4096, links: table, ..Input::job(Operation::Links, job) })
}
