//! Counts of what merging made of the jobs of a run, and the least that a run
//! must meet.

use std::fmt::{Display, Formatter, Result as Written};

/// The sizes of merged tables: the most states, the name, and how much rarer
/// than others they are. Sets of states take one to four words.
const SIZES: [(usize, &str, usize); 6] = [
    (1, "one state", 1),
    (16, "2 to 16 states", 1),
    (64, "17 to 64 states", 1),
    (128, "65 to 128 states", 1),
    (192, "129 to 192 states", 10),
    (256, "193 to 256 states", 10),
];

#[derive(Default)]
pub struct Merging {
    sizes: [usize; SIZES.len()],
    /// Nothing was merged, in over two states.
    the_same: usize,
    /// Some states were merged.
    fewer: usize,
    /// Half of the states or fewer were left, but over two.
    halved: usize,
}

impl Merging {
    /// Counts a job by its states before merging and after.
    pub fn count(&mut self, before: usize, after: usize) {
        let size = SIZES.iter().position(|(most, _, _)| after <= *most);
        self.sizes[size.expect("at most 256 states")] += 1;
        self.the_same += usize::from(before == after && after > 2);
        self.fewer += usize::from(after < before);
        self.halved += usize::from(2 * after <= before && after > 2);
    }

    /// Stops the run if fewer than `least` jobs of a kind were met, or fewer
    /// than that part of it for a rare one.
    pub fn assert_floors(&self, least: usize) {
        for (kind, count, rarer) in self.kinds() {
            assert!(count >= least / rarer, "only {count} of: {kind}");
        }
    }

    fn kinds(&self) -> impl Iterator<Item = (&'static str, usize, usize)> + '_ {
        let sizes = SIZES.iter().zip(self.sizes).map(|((_, name, rarer), count)| (*name, count, *rarer));
        sizes.chain([
            ("over two states, none of them merged", self.the_same, 1),
            ("some states merged", self.fewer, 1),
            ("half of the states left or fewer, but over two", self.halved, 1),
        ])
    }
}

impl Display for Merging {
    fn fmt(&self, out: &mut Formatter) -> Written {
        self.kinds().try_for_each(|(kind, count, _)| writeln!(out, "       {count:8} {kind}"))
    }
}
