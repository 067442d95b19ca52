//! Hand-made texts with the answer each must have: single faults, the limits
//! from both sides, and pairs of faults in one text, where the earlier check
//! decides: one for each pair of `conditions`.

mod expressions;
mod lines;
mod pairs;
mod pairs_of_lines;
mod parts;

pub use expressions::bad_expressions;

/// A text, the answer it must have (number 0 and line 0: accepted), and why.
pub struct Case {
    pub why: String,
    pub text: Vec<u8>,
    pub number: u8,
    pub line: u32,
}

/// All hand-made texts.
pub fn all() -> Vec<Case> {
    let mut table = Table { cases: Vec::new() };
    table.plain_jobs();
    table.form();
    table.opening_words();
    table.places_of_lines();
    table.names();
    table.name_bytes();
    table.expressions();
    table.expressions_at_limits();
    table.expressions_beyond_limits();
    table.counts();
    table.bytes_of_text();
    table.pairs_in_a_label_line();
    table.pairs_in_a_query_line();
    table.pairs_in_a_list_line();
    table.pairs_with_a_list_expression();
    table.pairs_of_list_lines();
    table.pairs_of_label_lines();
    table.pairs_of_query_and_list_lines();
    table.pairs_with_a_33rd_label();
    table.pairs_with_text_too_long();
    table.cases
}

/// The job printed in the scope document.
pub const EXAMPLE: &str = "label episode\nlabel mix\nlabel master\n\
    query episode.(mix|master)\nlist episodes episode\nlist mixes mix\n";

struct Table {
    cases: Vec<Case>,
}

impl Table {
    fn accept(&mut self, why: &str, text: impl AsRef<[u8]>) {
        self.refuse(0, 0, why, text);
    }

    fn refuse(&mut self, number: u8, line: u32, why: &str, text: impl AsRef<[u8]>) {
        let text = text.as_ref().to_vec();
        self.cases.push(Case { why: why.to_string(), text, number, line });
    }
}
