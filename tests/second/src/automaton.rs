//! Glushkov's positions of an expression, and the standings they make.

use crate::explore::Explored;
use crate::read::Expr;
use std::collections::BTreeSet;

pub const MOST_STANDINGS: usize = 64;

/// A set of positions: 0 is the start, 1 upward are the label occurrences
/// from left to right.
pub type Standing = BTreeSet<usize>;

pub struct Automaton {
    /// The label of each occurrence; none for the start.
    pub label: Vec<Option<usize>>,
    /// What may be read directly after each position; after the start, first.
    pub follow: Vec<BTreeSet<usize>>,
    /// The occurrences at which a path may end.
    pub last: BTreeSet<usize>,
    /// Whether the empty path is a path of the expression.
    pub nullable: bool,
}

/// What is known of a part of an expression, beside the follow sets.
#[derive(Default)]
struct Part {
    first: BTreeSet<usize>,
    last: BTreeSet<usize>,
    nullable: bool,
}

impl Automaton {
    pub fn new(expr: &Expr) -> Automaton {
        let mut automaton =
            Automaton { label: vec![None], follow: vec![BTreeSet::new()], last: BTreeSet::new(), nullable: false };
        let whole = automaton.add(expr);
        automaton.follow[0] = whole.first;
        automaton.last = whole.last;
        automaton.nullable = whole.nullable;
        automaton
    }

    fn add(&mut self, expr: &Expr) -> Part {
        match expr {
            Expr::Empty => Part { nullable: true, ..Part::default() },
            Expr::Label(label) => self.add_label(*label),
            Expr::Alt(parts) => self.add_alternative(parts),
            Expr::Seq(parts) => self.add_sequence(parts),
            Expr::Star(inner) => {
                let mut part = self.add(inner);
                self.join(&part.last, &part.first);
                part.nullable = true;
                part
            }
            Expr::Opt(inner) => {
                let mut part = self.add(inner);
                part.nullable = true;
                part
            }
        }
    }

    fn add_label(&mut self, label: usize) -> Part {
        let here = self.label.len();
        self.label.push(Some(label));
        self.follow.push(BTreeSet::new());
        Part { first: BTreeSet::from([here]), last: BTreeSet::from([here]), nullable: false }
    }

    fn add_alternative(&mut self, parts: &[Expr]) -> Part {
        let mut whole = Part::default();
        for part in parts {
            let part = self.add(part);
            whole.first.extend(part.first);
            whole.last.extend(part.last);
            whole.nullable |= part.nullable;
        }
        whole
    }

    fn add_sequence(&mut self, parts: &[Expr]) -> Part {
        let mut whole = Part { nullable: true, ..Part::default() };
        for part in parts {
            let part = self.add(part);
            self.join(&whole.last, &part.first);
            if whole.nullable {
                whole.first.extend(part.first);
            }
            if !part.nullable {
                whole.last.clear();
            }
            whole.last.extend(part.last);
            whole.nullable &= part.nullable;
        }
        whole
    }

    fn join(&mut self, ends: &BTreeSet<usize>, begins: &BTreeSet<usize>) {
        for end in ends {
            self.follow[*end].extend(begins);
        }
    }

    /// How many label occurrences there are.
    pub fn occurrences(&self) -> usize {
        self.label.len() - 1
    }

    /// What can be read directly after a position: labels, each with the
    /// occurrence it is read at.
    pub fn steps(&self, position: usize) -> impl Iterator<Item = (usize, usize)> + '_ {
        let follow = self.follow[position].iter();
        follow.filter_map(|next| Some((self.label[*next]?, *next)))
    }

    /// The occurrences that can follow a position by reading a label.
    pub fn step(&self, position: usize, label: usize) -> impl Iterator<Item = usize> + '_ {
        let right = self.steps(position).filter(move |(read, _)| *read == label);
        right.map(|(_, next)| next)
    }

    /// Whether a path that can end at this position is one of the expression.
    pub fn ends_at(&self, position: usize) -> bool {
        if position == 0 {
            self.nullable
        } else {
            self.last.contains(&position)
        }
    }

    /// The standing before any label.
    pub fn start(&self) -> Standing {
        Standing::from([0])
    }

    /// The standing after one more label.
    pub fn after(&self, standing: &Standing, label: usize) -> Standing {
        let each = standing.iter().flat_map(|here| self.step(*here, label));
        each.collect()
    }

    /// Whether the paths leading to the standing are paths of the expression.
    pub fn accepts(&self, standing: &Standing) -> bool {
        standing.iter().any(|position| self.ends_at(*position))
    }
}

/// All standings over the paths of some labels, numbered; 0 is the start.
pub struct Standings {
    pub sets: Vec<Standing>,
    pub accepts: Vec<bool>,
    /// The standing after one more label: `next[standing][label]`.
    pub next: Vec<Vec<usize>>,
}

impl Standings {
    /// Refusal 9 if there are over 64.
    pub fn new(automaton: &Automaton, labels: usize) -> Result<Standings, u8> {
        let step = |here: &Standing, label| automaton.after(here, label);
        let all = Explored::new(automaton.start(), labels, MOST_STANDINGS, step).ok_or(9)?;
        let accepts = all.values.iter().map(|one| automaton.accepts(one));
        Ok(Standings { accepts: accepts.collect(), sets: all.values, next: all.next })
    }

    pub fn count(&self) -> usize {
        self.next.len()
    }
}
