//! Random tables: a tree from recording 0 through as many recordings as there
//! are links, so that all is within reach, then links between any two.

use crate::random::Random;
use std::collections::BTreeSet;

/// A table with so many links whose labels are below `labels`.
pub fn table(random: &mut Random, recordings: usize, links: usize, labels: usize) -> Vec<u16> {
    let mut set = BTreeSet::new();
    while set.len() < links {
        let (from, to) = match set.len() + 1 {
            next if next < recordings => (random.below(next), next),
            _ => (random.below(recordings), random.below(recordings)),
        };
        set.insert((from as u16, random.below(labels) as u16, to as u16));
    }
    set.into_iter().flat_map(|(from, label, to)| [from, label, to]).collect()
}
