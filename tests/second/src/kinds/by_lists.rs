//! Jobs whose query is made of the lists, or has to do with them.

use super::parts::{expression, labels, lists, pieces, Parts};
use crate::generate::Random;
use crate::read::{MOST_LABELS, MOST_LISTS};

pub fn small(random: &mut Random) -> Parts {
    let count = random.between(1, 3);
    let labels = labels(random, count);
    let count = random.below(4);
    let lists = lists(random, &labels, count, 3);
    let query = if lists.is_empty() || random.one_in(2) {
        let atoms = random.between(1, 6);
        expression(random, &labels, atoms, 3)
    } else {
        let atoms = random.between(1, 3);
        expression(random, &pieces(&lists), atoms, 2)
    };
    Parts { labels, query, lists }
}

pub fn of_lists(random: &mut Random) -> Parts {
    let count = random.between(1, 4);
    let labels = labels(random, count);
    let count = random.between(1, 4);
    let lists = lists(random, &labels, count, 3);
    let atoms = random.between(1, 4);
    let query = expression(random, &pieces(&lists), atoms, 2);
    Parts { labels, query, lists }
}

pub fn beside_lists(random: &mut Random) -> Parts {
    let mut parts = of_lists(random);
    let length = random.between(1, 7);
    let path: Vec<&str> = (0..length).map(|_| random.pick(&parts.labels).as_str()).collect();
    let path = path.join(".");
    parts.query = if random.one_in(2) { format!("{}|{path}", parts.query) } else { format!("{path}|{}", parts.query) };
    parts
}

pub fn list_dropped(random: &mut Random) -> Parts {
    let mut parts = of_lists(random);
    let dropped = random.below(parts.lists.len());
    parts.lists.remove(dropped);
    parts
}

pub fn wide(random: &mut Random) -> Parts {
    let count = match random.below(4) {
        0 => MOST_LABELS,
        _ => random.between(4, 12),
    };
    let labels = labels(random, count);
    let count = match random.below(4) {
        0 => MOST_LISTS,
        _ => random.between(3, 9),
    };
    let lists = lists(random, &labels, count, 2);
    let atoms = random.between(2, 8);
    let mut all = pieces(&lists);
    if random.one_in(2) {
        all.extend(labels.iter().take(4).cloned());
    }
    let query = expression(random, &all, atoms, 2);
    Parts { labels, query, lists }
}
