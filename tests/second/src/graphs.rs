//! Random tables of links, by shape, and tables with a fault.

use crate::answer::{MOST_LINKS, MOST_RECORDINGS};
use crate::generate::Random;
use std::collections::BTreeSet;

/// (from, label, to), as in a table.
pub type Links = BTreeSet<(usize, usize, usize)>;

#[derive(Clone, Copy, Debug, PartialEq, Eq)]
pub enum Shape {
    Sparse,
    /// About every second possible link.
    Dense,
    /// One cycle through all recordings, and some links across.
    Cycle,
    /// Links from recordings to themselves, and some others.
    SelfLinks,
    /// From each recording to the next or to the one before.
    Row,
    One,
    /// 4,096 recordings.
    Wide,
    /// 16,384 links.
    Full,
}

impl Shape {
    pub const ALL: [Shape; 8] =
        [Shape::Sparse, Shape::Dense, Shape::Cycle, Shape::SelfLinks, Shape::Row, Shape::One, Shape::Wide, Shape::Full];

    pub fn words(self) -> &'static str {
        match self {
            Shape::Sparse => "sparse links",
            Shape::Dense => "dense links",
            Shape::Cycle => "a cycle of links",
            Shape::SelfLinks => "links to the same recording",
            Shape::Row => "a row of links",
            Shape::One => "one recording",
            Shape::Wide => "4096 recordings",
            Shape::Full => "16384 links",
        }
    }

    /// A number of recordings for the shape.
    pub fn recordings(self, random: &mut Random) -> usize {
        match self {
            Shape::One => 1,
            Shape::Wide => MOST_RECORDINGS,
            Shape::Full => *random.pick(&[128, 200, 1000, MOST_RECORDINGS]),
            Shape::Dense => random.between(2, 12),
            _ if random.one_in(10) => random.between(65, 500),
            _ if random.one_in(4) => random.between(13, 64),
            _ => random.between(2, 12),
        }
    }

    /// Links of the shape with labels below `labels`; none if there are none.
    pub fn links(self, random: &mut Random, recordings: usize, labels: usize) -> Links {
        let mut links = Links::new();
        if labels == 0 {
            return links;
        }
        let all = recordings * recordings * labels;
        let more = match self {
            Shape::Sparse => random.below(2 * recordings + 1),
            Shape::Dense | Shape::One => all / 2,
            Shape::Cycle => {
                links = cycle(random, recordings, labels);
                random.below(3)
            }
            Shape::SelfLinks => {
                links = self_links(random, recordings, labels);
                random.below(recordings + 1)
            }
            Shape::Row => {
                links = row(random, recordings, labels);
                0
            }
            Shape::Wide if random.one_in(2) => {
                links = cycle(random, recordings, labels);
                0
            }
            Shape::Wide => random.between(recordings / 2, MOST_LINKS),
            Shape::Full => {
                fill(random, &mut links, recordings, labels, MOST_LINKS.min(all));
                0
            }
        };
        add(random, &mut links, recordings, labels, more.min(MOST_LINKS));
        links
    }
}

fn cycle(random: &mut Random, recordings: usize, labels: usize) -> Links {
    let each = 0..recordings;
    each.map(|from| (from, random.below(labels), (from + 1) % recordings)).collect()
}

fn self_links(random: &mut Random, recordings: usize, labels: usize) -> Links {
    let mut links = Links::new();
    for from in 0..recordings {
        if random.one_in(2) {
            links.insert((from, random.below(labels), from));
        }
    }
    links
}

/// Upward or downward.
fn row(random: &mut Random, recordings: usize, labels: usize) -> Links {
    let down = random.one_in(2);
    let mut links = Links::new();
    for from in 1..recordings {
        let (from, to) = match down {
            true => (from, from - 1),
            false => (from - 1, from),
        };
        links.insert((from, random.below(labels), to));
    }
    links
}

/// Adds random links until there are `count`, which must be possible.
fn fill(random: &mut Random, links: &mut Links, recordings: usize, labels: usize, count: usize) {
    while links.len() < count {
        let missing = count - links.len();
        add(random, links, recordings, labels, missing);
    }
}

/// Adds random links, some of which may be there.
fn add(random: &mut Random, links: &mut Links, recordings: usize, labels: usize, count: usize) {
    for _ in 0..count {
        let from = random.below(recordings);
        let label = random.below(labels);
        links.insert((from, label, random.below(recordings)));
    }
}

pub fn table(links: &Links) -> Vec<u16> {
    let each = links.iter();
    each.flat_map(|(from, label, to)| [*from as u16, *label as u16, *to as u16]).collect()
}

/// The faults of a table.
#[derive(Clone, Copy, Debug, PartialEq, Eq)]
pub enum Fault {
    Length,
    From,
    Label,
    To,
    Twice,
    Unsorted,
    TooMany,
}

impl Fault {
    pub const ALL: [Fault; 7] =
        [Fault::Length, Fault::From, Fault::Label, Fault::To, Fault::Twice, Fault::Unsorted, Fault::TooMany];

    pub fn words(self) -> &'static str {
        match self {
            Fault::Length => "length no multiple of three",
            Fault::From => "from out of range",
            Fault::Label => "label out of range",
            Fault::To => "to out of range",
            Fault::Twice => "one triple twice",
            Fault::Unsorted => "not rising",
            Fault::TooMany => "16385 links",
        }
    }

    /// The table with this fault; none if it cannot have it.
    pub fn put(self, random: &mut Random, links: &Links, recordings: usize, labels: usize) -> Option<Vec<u16>> {
        let mut table = table(links);
        let triples = table.len() / 3;
        let outside = |random: &mut Random, end: usize| *random.pick(&[end as u16, u16::MAX]);
        match self {
            Fault::Length if random.one_in(2) && triples > 0 => {
                table.truncate(table.len() - random.between(1, 2));
            }
            Fault::Length => table.extend(vec![0; random.between(1, 2)]),
            Fault::From => table.extend([outside(random, recordings), 0, 0]),
            Fault::Label if triples > 0 => {
                table[3 * random.below(triples) + 1] = outside(random, labels);
            }
            Fault::Label => table.extend([0, outside(random, labels), 0]),
            Fault::To if triples > 0 => {
                table[3 * random.below(triples) + 2] = outside(random, recordings);
            }
            Fault::To => table.extend([0, 0, outside(random, recordings)]),
            Fault::Twice if triples > 0 => {
                let triple = 3 * random.below(triples);
                table.splice(triple..triple, table[triple..triple + 3].to_vec());
            }
            Fault::Unsorted if triples > 1 => {
                let triple = 3 * random.below(triples - 1);
                table[triple..triple + 6].rotate_left(3);
            }
            Fault::TooMany if recordings * recordings * labels > MOST_LINKS => {
                let mut links = links.clone();
                fill(random, &mut links, recordings, labels, MOST_LINKS + 1);
                return Some(self::table(&links));
            }
            _ => return None,
        }
        Some(table)
    }
}
