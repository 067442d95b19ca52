//! What the judged jobs had, and the least they must have.

/// What the judged jobs had.
#[derive(Debug, Default)]
pub struct Tally {
    pub jobs: usize,
    pub refused_9: usize,
    pub refused_10: usize,
    pub refused_12: usize,
    pub refused_13: usize,
    pub complete: usize,
    pub missed: usize,
    pub missed_beyond: usize,
    pub no_word: usize,
    pub first_of_names: usize,
    pub words_accepted: usize,
    pub words_refuted: usize,
    pub words_open: usize,
    pub exact_pair_counts: usize,
    pub exact_standing_counts: usize,
    pub marks_of_links: usize,
    pub marks_of_lists: usize,
    pub answers_alike: usize,
    pub answers_less: usize,
    pub merged: usize,
}

impl Tally {
    /// Stops if too few of some kind were met.
    pub fn assert_floors(&self) {
        assert!(self.complete >= 50 && self.missed >= 100 && self.no_word >= 50);
        assert!(self.first_of_names >= 50);
        assert!(self.words_accepted >= 500 && self.words_refuted >= 1000);
        assert!(self.words_open * 20 <= self.words_refuted);
        assert!(self.exact_standing_counts >= 200 && self.exact_pair_counts >= 200);
        assert!(self.marks_of_links >= 1000 && self.marks_of_lists >= 200);
        assert!(self.answers_alike >= 100 && self.answers_less >= 50);
        assert!(self.merged >= 200);
    }
}
