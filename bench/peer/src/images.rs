//! The image of each standing by a list: the standings after the list's paths.
//! A search over pairs of a list's place and a standing, for all standings to
//! begin with at once: a pair has the set of those that reach it.

use crate::bits::Bits;
use crate::expression::Automaton;
use crate::standings::Standings;

struct Search<'a> {
    list: &'a Automaton,
    query: &'a Standings,
    /// From where a pair is reached, at 64 × place + standing.
    from: Vec<u64>,
    /// The standings of each place that are to be followed.
    pending: [u64; 64],
    /// The places that have some.
    places: u64,
}

/// The image of each standing.
pub fn images(query: &Standings, list: &Automaton) -> [u64; 64] {
    let from = vec![0; 64 * (list.size + 1)];
    let mut search = Search { list, query, from, pending: [0; 64], places: 1 };
    for standing in 0..query.count {
        search.from[standing] = 1 << standing;
    }
    search.pending[0] = u64::MAX >> (64 - query.count);
    while search.places != 0 {
        search.follow(search.places.trailing_zeros() as usize);
    }
    search.ended()
}

impl Search<'_> {
    /// Follows all that is pending at the place.
    fn follow(&mut self, place: usize) {
        self.places &= !(1 << place);
        let standings = std::mem::take(&mut self.pending[place]);
        for next in Bits(self.list.follow[place]) {
            self.lead(place, standings, next);
        }
    }

    /// From the pairs of a place to those of the next one.
    #[inline(always)]
    fn lead(&mut self, place: usize, standings: u64, next: usize) {
        let label = self.list.label[next] as usize;
        let mut added = 0;
        for standing in Bits(standings) {
            let to = self.query.next[self.query.labels * standing + label] as usize;
            let from = self.from[64 * place + standing];
            let reached = &mut self.from[64 * next + to];
            if from & !*reached != 0 {
                *reached |= from;
                added |= 1 << to;
            }
        }
        self.pending[next] |= added;
        self.places |= ((added != 0) as u64) << next;
    }

    /// What is reached where the list may end, turned round.
    fn ended(&self) -> [u64; 64] {
        let mut images = [0; 64];
        for to in 0..self.query.count {
            let from = Bits(self.list.accepting).fold(0, |all, place| all | self.from[64 * place + to]);
            for standing in Bits(from) {
                images[standing] |= 1 << to;
            }
        }
        images
    }
}
