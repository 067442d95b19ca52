//! Read: from a job text to the job, or to its first refusal.
//!
//! A job text has 1 to 32 lines `label NAME`, one line `query EXPR` and 0 to
//! 16 lines `list NAME EXPR`. Lines are checked one after another, each fully
//! before the next.

mod expression;
mod name;
mod reason;

use expression::read_expression;
use name::read_name;
pub use reason::{Fault, Reason};

pub const MOST_TEXT_BYTES: usize = 8192;
pub const MOST_LABELS: usize = 32;
pub const MOST_LISTS: usize = 16;
pub const MOST_NAME_BYTES: usize = 16;
pub const MOST_EXPRESSION_BYTES: usize = 512;
pub const MOST_DEPTH: usize = 16;
pub const MOST_OCCURRENCES: usize = 63;

/// A job. Labels and lists are numbered from 0 in line order.
#[derive(Clone, Debug, PartialEq, Eq)]
pub struct Job {
    pub labels: Vec<String>,
    pub query: Expr,
    pub lists: Vec<List>,
}

#[derive(Clone, Debug, PartialEq, Eq)]
pub struct List {
    pub name: String,
    pub expr: Expr,
}

/// An expression. `L` stands for a label: its number, or its name while the
/// text is being read. `Alt` and `Seq` hold two or more parts.
#[derive(Clone, Debug, PartialEq, Eq)]
pub enum Expr<L = usize> {
    Empty,
    Label(L),
    Alt(Vec<Expr<L>>),
    Seq(Vec<Expr<L>>),
    Star(Box<Expr<L>>),
    Opt(Box<Expr<L>>),
}

/// A refusal as the document numbers it. Lines count from 1; refusal 1 has
/// line 0.
#[derive(Clone, Copy, Debug, PartialEq, Eq)]
pub struct Refusal {
    pub number: u8,
    pub line: u32,
}

/// Reads a job text.
pub fn read(text: &[u8]) -> Result<Job, Refusal> {
    read_or_fault(text).map_err(|fault| Refusal { number: fault.reason.number(), line: fault.line })
}

/// As `read`, telling the reason.
pub fn read_or_fault(text: &[u8]) -> Result<Job, Fault> {
    if text.len() > MOST_TEXT_BYTES {
        return Err(Fault { reason: Reason::TextTooLong, line: 0 });
    }

    let mut part = Part { labels: Vec::new(), query: None, lists: Vec::new() };
    let mut rest = text;
    let mut line = 1;
    while !rest.is_empty() {
        let Some(end) = rest.iter().position(|&byte| byte == 10) else {
            return Err(Fault { reason: Reason::NotClosed, line });
        };
        part.add_line(&rest[..end]).map_err(|reason| Fault { reason, line })?;
        rest = &rest[end + 1..];
        line += 1;
    }

    match part.query {
        Some(query) => Ok(Job { labels: part.labels, query, lists: part.lists }),
        None => Err(Fault { reason: Reason::NoQuery, line }),
    }
}

/// The part of a job that the lines so far have given.
struct Part {
    labels: Vec<String>,
    query: Option<Expr>,
    lists: Vec<List>,
}

impl Part {
    /// `line` comes without its closing byte 10.
    fn add_line(&mut self, line: &[u8]) -> Result<(), Reason> {
        if let Some(rest) = line.strip_prefix(b"label ") {
            self.add_label(rest)
        } else if let Some(rest) = line.strip_prefix(b"query ") {
            self.add_query(rest)
        } else if let Some(rest) = line.strip_prefix(b"list ") {
            self.add_list(rest)
        } else {
            Err(Reason::WrongWord)
        }
    }

    fn add_label(&mut self, name: &[u8]) -> Result<(), Reason> {
        if self.query.is_some() {
            return Err(Reason::OutOfPlace);
        }
        if self.labels.len() == MOST_LABELS {
            return Err(Reason::TooManyLabels);
        }
        let name = read_name(name).ok_or(Reason::BadName)?;
        if self.labels.iter().any(|label| label == name) {
            return Err(Reason::RepeatedName);
        }
        self.labels.push(name.to_string());
        Ok(())
    }

    fn add_query(&mut self, expr: &[u8]) -> Result<(), Reason> {
        if self.labels.is_empty() || self.query.is_some() {
            return Err(Reason::OutOfPlace);
        }
        self.query = Some(read_expression(expr, &self.labels)?);
        Ok(())
    }

    fn add_list(&mut self, rest: &[u8]) -> Result<(), Reason> {
        if self.query.is_none() {
            return Err(Reason::OutOfPlace);
        }
        let space = rest.iter().position(|&byte| byte == b' ');
        let space = space.ok_or(Reason::NoSecondSpace)?;
        if self.lists.len() == MOST_LISTS {
            return Err(Reason::TooManyLists);
        }
        let name = read_name(&rest[..space]).ok_or(Reason::BadName)?;
        if self.lists.iter().any(|list| list.name == name) {
            return Err(Reason::RepeatedName);
        }
        let expr = read_expression(&rest[space + 1..], &self.labels)?;
        self.lists.push(List { name: name.to_string(), expr });
        Ok(())
    }
}
