//! Which recordings are joined: relations of expressions, and list words
//! followed on tables.

use second::generate::Random;
use second::graphs::Links;
use second::read::Expr;
use second::table::Table;
use std::collections::BTreeSet;

pub type Pairs = BTreeSet<(usize, usize)>;

/// From which recording to which a path of the expression leads.
pub fn relation(expr: &Expr, recordings: usize, links: &Links) -> Pairs {
    let same: Pairs = (0..recordings).map(|x| (x, x)).collect();
    match expr {
        Expr::Empty => same,
        Expr::Label(label) => {
            let right = links.iter().filter(|(_, l, _)| l == label);
            right.map(|(from, _, to)| (*from, *to)).collect()
        }
        Expr::Alt(parts) => {
            let each = parts.iter();
            each.flat_map(|part| relation(part, recordings, links)).collect()
        }
        Expr::Seq(parts) => {
            let each = parts.iter();
            each.fold(same, |left, part| composed(&left, &relation(part, recordings, links)))
        }
        Expr::Opt(inner) => &same | &relation(inner, recordings, links),
        Expr::Star(inner) => {
            let inner = relation(inner, recordings, links);
            let mut all = same;
            loop {
                let more = &all | &composed(&all, &inner);
                if more == all {
                    return all;
                }
                all = more;
            }
        }
    }
}

fn composed(left: &Pairs, right: &Pairs) -> Pairs {
    let mut all = Pairs::new();
    for (x, y) in left {
        for (z, end) in right {
            if y == z {
                all.insert((*x, *end));
            }
        }
    }
    all
}

pub fn random_links(random: &mut Random, recordings: usize, labels: usize) -> Links {
    let mut links = BTreeSet::new();
    if labels > 0 {
        for _ in 0..random.below(3 * recordings) {
            links.insert((random.below(recordings), random.below(labels), random.below(recordings)));
        }
    }
    links
}

/// Where a list word leads from the start.
pub fn led_to(word: &[usize], start: usize, lists: &Links) -> BTreeSet<usize> {
    let mut here = BTreeSet::from([start]);
    for name in word {
        let right = lists.iter().filter(|(x, n, _)| n == name && here.contains(x));
        here = right.map(|(_, _, y)| *y).collect();
    }
    here
}

/// Where accepted words lead, by the number of their names. A shortest one
/// meets no recording twice with one state.
pub fn by_length(table: &Table, recordings: usize, start: usize, lists: &Links) -> BTreeSet<usize> {
    let mut marks = BTreeSet::new();
    let mut here = Pairs::from([(start, 0)]);
    for _ in 0..recordings * table.states() {
        let right = here.iter().filter(|(_, state)| table.accepting[*state]);
        marks.extend(right.map(|(recording, _)| *recording));
        let mut next = Pairs::new();
        for (x, name, y) in lists {
            for (recording, state) in &here {
                if recording == x {
                    next.insert((*y, table.next[*state][*name]));
                }
            }
        }
        here = next;
    }
    marks
}
