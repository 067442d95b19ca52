//! Tables of links and lists, and where the links of a recording begin.

use crate::refusal::{refuse, Result};

const MOST_LINKS: usize = 16384;

pub struct Table<'a> {
    numbers: &'a [u16],
    /// Where each recording's links begin, and where the last one's end.
    begin: Vec<u32>,
}

/// The index of a table; 15 where the numbers are none. The pass over the
/// numbers has no branch.
pub fn table(numbers: &[u16], recordings: usize, symbols: usize) -> Result<Table<'_>> {
    if numbers.len() % 3 != 0 || numbers.len() > 3 * MOST_LINKS {
        return refuse(15);
    }
    let mut begin = vec![0u32; recordings + 1];
    let (mut before, mut bad) = (0, false);
    for (place, link) in numbers.chunks_exact(3).enumerate() {
        let (from, symbol, to) = (link[0] as usize, link[1] as usize, link[2] as usize);
        // One more, so that the first link comes after nothing.
        let number = 1 + ((from as u64) << 32 | (symbol as u64) << 16 | to as u64);
        bad |= (from >= recordings) | (symbol >= symbols) | (to >= recordings) | (number <= before);
        before = number;
        begin[recordings.min(from + 1)] = 3 * (place as u32 + 1);
    }
    if bad {
        return refuse(15);
    }
    let mut most = 0;
    for place in &mut begin {
        most = most.max(*place);
        *place = most;
    }
    Ok(Table { numbers, begin })
}

impl Table<'_> {
    /// The links that leave the recording, three numbers each.
    #[inline(always)]
    pub fn leaving(&self, recording: usize) -> std::slice::ChunksExact<'_, u16> {
        let (from, to) = (self.begin[recording] as usize, self.begin[recording + 1] as usize);
        self.numbers[from..to].chunks_exact(3)
    }
}
