//! Random right jobs for Verdict and the Answers, by kind: most of them small,
//! others made so that what is rare among random jobs is met often.

mod by_lists;
mod near_limits;
mod parts;

pub use near_limits::with_pairs;

use crate::generate::{right_text, Random};
use crate::large::large;
use by_lists::{beside_lists, list_dropped, of_lists, small, wide};
use near_limits::{at_limit_of_places, far, long_lists, many_states};
use parts::drawn;

#[derive(Clone, Copy, Debug, PartialEq, Eq)]
pub enum Kind {
    /// Few labels, few short lists.
    Small,
    /// The query is an expression over the lists: the verdict is complete.
    OfLists,
    /// The same, with one path more in the query.
    BesideLists,
    /// The same, with one list dropped afterwards.
    ListDropped,
    /// Many labels, many lists.
    Wide,
    /// As many cover places as may be, or some more.
    Places,
    /// States that stay many when they are merged.
    Large,
    /// The same, over 64 states, and no more cover places than may be.
    States,
    /// Long lists that begin differently.
    Long,
    /// Over 128 pairs.
    Pairs,
    /// Over 64 standings or over 256 states.
    Far,
    /// Any right job.
    Right,
}

impl Kind {
    pub const ALL: [Kind; 12] = [
        Kind::Small,
        Kind::OfLists,
        Kind::BesideLists,
        Kind::ListDropped,
        Kind::Wide,
        Kind::Places,
        Kind::Large,
        Kind::States,
        Kind::Long,
        Kind::Pairs,
        Kind::Far,
        Kind::Right,
    ];

    pub fn words(self) -> &'static str {
        match self {
            Kind::Small => "small",
            Kind::OfLists => "query made of the lists",
            Kind::BesideLists => "query made of the lists and a path",
            Kind::ListDropped => "query made of the lists, one dropped",
            Kind::Wide => "many labels and lists",
            Kind::Places => "about 1024 cover places",
            Kind::Large => "states that stay many",
            Kind::States => "over 64 states",
            Kind::Long => "long lists that begin differently",
            Kind::Pairs => "over 128 pairs",
            Kind::Far => "over 64 standings or 256 states",
            Kind::Right => "any right job",
        }
    }

    /// A random job of this kind.
    pub fn text(self, random: &mut Random) -> Vec<u8> {
        match self {
            Kind::Small => drawn(random, small),
            Kind::OfLists => drawn(random, of_lists),
            Kind::BesideLists => drawn(random, beside_lists),
            Kind::ListDropped => drawn(random, list_dropped),
            Kind::Wide => drawn(random, wide),
            Kind::Places => at_limit_of_places(random),
            Kind::Large => large(random).into_bytes(),
            Kind::States => many_states(random),
            Kind::Long => long_lists(random),
            Kind::Pairs => with_pairs(random, 129, 700),
            Kind::Far => drawn(random, far),
            Kind::Right => right_text(random),
        }
    }
}
