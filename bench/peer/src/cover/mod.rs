//! Cover places: sets of them, and where a label leads from a set. There are
//! two layouts; a verdict takes the one with fewer words.

mod closure;
mod columns;
mod rows;

pub use closure::closures;
pub use columns::Columns;
pub use rows::Rows;

/// A layout of sets of cover places.
pub trait Cover {
    /// How many words a set has.
    fn words(&self) -> usize;

    /// The set of the empty path.
    fn start(&self, to: &mut [u64]);

    /// What all labels have in common of a step, kept for `step`.
    fn follow(&mut self, from: &[u64]);

    /// The set that the label leads to from the set that was last followed.
    fn step(&self, label: usize, to: &mut [u64]);

    /// Whether an accepting state alone is in the set.
    fn yields(&self, set: &[u64]) -> bool;
}
