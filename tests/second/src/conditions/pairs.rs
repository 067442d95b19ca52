//! The pairs of conditions that one text can meet, with the reason why where
//! none can.

use crate::read::{Fault, Reason, Reason::*};

/// Two conditions of one text: the first is told, and the second holds too, in
/// the same line or later. The text's length counts as line 0, a missing query
/// as the line after the last.
#[derive(Clone, Copy, Debug, PartialEq, Eq, Hash)]
pub struct Pair {
    pub first: Reason,
    pub second: Reason,
    pub same_line: bool,
}

/// The place of a condition in the order of the checks. Conditions with one
/// place are one check: in one line they are one refusal.
fn check(reason: Reason) -> usize {
    match reason {
        TextTooLong => 1,
        NotClosed | WrongWord | OutOfPlace | NoSecondSpace => 2,
        TooManyLabels | TooManyLists => 3,
        BadName | RepeatedName => 4,
        ExpressionTooLong => 5,
        NotInGrammar => 6,
        TooDeep => 7,
        UnknownLabel => 8,
        TooManyOccurrences => 9,
        NoQuery => 10,
    }
}

/// All pairs: in a line, each check with each later one; and each condition
/// with each in a later line. Nothing comes before the text's length, and
/// nothing after a missing query.
pub fn pairs() -> Vec<Pair> {
    let of_a_line = |reason| !matches!(reason, TextTooLong | NoQuery);
    let mut all = Vec::new();
    for first in Reason::ALL {
        for second in Reason::ALL {
            let mut add = |same_line| all.push(Pair { first, second, same_line });
            if of_a_line(first) && of_a_line(second) && check(first) < check(second) {
                add(true);
            }
            if first != NoQuery && second != TextTooLong {
                add(false);
            }
        }
    }
    all
}

impl Pair {
    /// Why no text has this pair, if none has.
    ///
    /// | told | with it in the same line | why not |
    /// |---|---|---|
    /// | 2, wrong word | 4, 3, the expression's | such a line is no label or list, and has no name and no expression |
    /// | 2, out of place | 4, a 17th list | a list is out of place before the query, and so are the 16 lists before it |
    /// | 2, no second space | 4, a 33rd label | only a list has a second space |
    /// | 2, no second space | the expression's | the expression comes after that space |
    /// | 4, a 33rd label | the expression's | a label has no expression |
    ///
    /// | told | with it later | why not |
    /// |---|---|---|
    /// | 2, not closed | anything but a missing query | such a line is the last |
    /// | 2, no second space; 4, a 17th list | 2, no query | a list that is in its place has the query before it |
    /// | the expression's | 2, no query | the expression is the query's, or that of such a list |
    pub fn excluded(self) -> Option<&'static str> {
        let of_an_expression = |reason| (5..=9).contains(&check(reason));
        match (self.first, self.second, self.same_line) {
            (WrongWord, _, true) => Some("a wrong word's line has no other part"),
            (OutOfPlace, TooManyLists, true) => Some("the lists before it are out of place too"),
            (NoSecondSpace, TooManyLabels, true) => Some("only a list has a second space"),
            (NoSecondSpace, second, true) if of_an_expression(second) => {
                Some("the expression comes after the second space")
            }
            (TooManyLabels, second, true) if of_an_expression(second) => Some("a label has no expression"),
            (NotClosed, NoQuery, false) => None,
            (NotClosed, _, false) => Some("a line that is not closed is the last"),
            (NoSecondSpace | TooManyLists, NoQuery, false) => Some("a list in its place has the query before it"),
            (first, NoQuery, false) if of_an_expression(first) => Some("the expression is the query's or behind it"),
            _ => None,
        }
    }

    /// The pairs that a text has, given its conditions.
    pub fn of(met: &[Fault]) -> Vec<Pair> {
        let Some((told, others)) = met.split_first() else {
            return Vec::new();
        };
        let pair =
            |other: &Fault| Pair { first: told.reason, second: other.reason, same_line: told.line == other.line };
        let same_check = |other: &Fault| told.line == other.line && check(told.reason) == check(other.reason);
        let others = others.iter().filter(|other| !same_check(other));
        others.map(pair).collect()
    }
}
