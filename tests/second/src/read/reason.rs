//! The reasons for which a text is refused.

/// Why a text is refused, told more finely than by the refusal's number.
#[derive(Clone, Copy, Debug, PartialEq, Eq, Hash)]
pub enum Reason {
    TextTooLong,
    NotClosed,
    WrongWord,
    OutOfPlace,
    NoSecondSpace,
    NoQuery,
    TooManyLabels,
    TooManyLists,
    BadName,
    RepeatedName,
    ExpressionTooLong,
    NotInGrammar,
    TooDeep,
    UnknownLabel,
    TooManyOccurrences,
}

impl Reason {
    pub const ALL: [Reason; 15] = [
        Reason::TextTooLong,
        Reason::NotClosed,
        Reason::WrongWord,
        Reason::OutOfPlace,
        Reason::NoSecondSpace,
        Reason::NoQuery,
        Reason::BadName,
        Reason::RepeatedName,
        Reason::TooManyLabels,
        Reason::TooManyLists,
        Reason::NotInGrammar,
        Reason::UnknownLabel,
        Reason::ExpressionTooLong,
        Reason::TooDeep,
        Reason::TooManyOccurrences,
    ];

    /// The refusal's number.
    pub fn number(self) -> u8 {
        match self {
            Reason::TextTooLong => 1,
            Reason::NotClosed => 2,
            Reason::WrongWord => 2,
            Reason::OutOfPlace => 2,
            Reason::NoSecondSpace => 2,
            Reason::NoQuery => 2,
            Reason::BadName => 3,
            Reason::RepeatedName => 3,
            Reason::TooManyLabels => 4,
            Reason::TooManyLists => 4,
            Reason::NotInGrammar => 5,
            Reason::UnknownLabel => 6,
            Reason::ExpressionTooLong => 7,
            Reason::TooDeep => 7,
            Reason::TooManyOccurrences => 7,
        }
    }

    pub fn words(self) -> &'static str {
        match self {
            Reason::TextTooLong => "text over 8192 bytes",
            Reason::NotClosed => "no closing byte 10",
            Reason::WrongWord => "wrong opening word, or no space after it",
            Reason::OutOfPlace => "line out of its place",
            Reason::NoSecondSpace => "list line without its second space",
            Reason::NoQuery => "text ends without a query",
            Reason::BadName => "bad name",
            Reason::RepeatedName => "repeated name",
            Reason::TooManyLabels => "33rd label",
            Reason::TooManyLists => "17th list",
            Reason::NotInGrammar => "expression not in the grammar",
            Reason::UnknownLabel => "unknown label",
            Reason::ExpressionTooLong => "expression over 512 bytes",
            Reason::TooDeep => "parentheses too deep",
            Reason::TooManyOccurrences => "over 63 occurrences",
        }
    }
}

/// A reason with the line it was met in.
#[derive(Clone, Copy, Debug, PartialEq, Eq)]
pub struct Fault {
    pub reason: Reason,
    pub line: u32,
}
