//! Job texts, line by line.

use crate::expression::{parse, Automaton};
use crate::names::Names;
use crate::refusal::{refuse, refuse_at, Result};

/// The query's automaton stands first, then those of the lists.
pub struct Job {
    pub labels: usize,
    pub automata: Vec<Automaton>,
}

impl Job {
    pub fn query(&self) -> &Automaton {
        &self.automata[0]
    }

    pub fn lists(&self) -> &[Automaton] {
        &self.automata[1..]
    }
}

struct Reader {
    labels: Names,
    lists: Names,
    automata: Vec<Automaton>,
}

/// The job, or the first refusal with its line.
pub fn read(text: &[u8]) -> Result<Job> {
    if text.len() > 8192 {
        return refuse(1);
    }
    let mut reader = Reader { labels: Names::new(), lists: Names::new(), automata: Vec::with_capacity(4) };
    let (mut rest, mut number) = (text, 1);
    while !rest.is_empty() {
        let Some(end) = rest.iter().position(|&byte| byte == b'\n') else { return refuse_at(2, number) };
        if let Err(refusal) = reader.line(&rest[..end]) {
            return refuse_at(refusal.number, number);
        }
        rest = &rest[end + 1..];
        number += 1;
    }
    if reader.automata.is_empty() {
        return refuse_at(2, number);
    }
    Ok(Job { labels: reader.labels.count, automata: reader.automata })
}

impl Reader {
    fn line(&mut self, line: &[u8]) -> Result<()> {
        if let Some(rest) = line.strip_prefix(b"label ") {
            return self.label(rest);
        }
        if let Some(rest) = line.strip_prefix(b"query ") {
            return self.query(rest);
        }
        match line.strip_prefix(b"list ") {
            Some(rest) => self.list(rest),
            None => refuse(2),
        }
    }

    fn label(&mut self, name: &[u8]) -> Result<()> {
        if !self.automata.is_empty() {
            return refuse(2);
        }
        self.labels.add(name, 32)
    }

    fn query(&mut self, expression: &[u8]) -> Result<()> {
        if !self.automata.is_empty() || self.labels.count == 0 {
            return refuse(2);
        }
        self.automata.push(parse(expression, &self.labels)?);
        Ok(())
    }

    fn list(&mut self, rest: &[u8]) -> Result<()> {
        if self.automata.is_empty() {
            return refuse(2);
        }
        let Some(space) = rest.iter().position(|&byte| byte == b' ') else { return refuse(2) };
        self.lists.add(&rest[..space], 16)?;
        self.automata.push(parse(&rest[space + 1..], &self.labels)?);
        Ok(())
    }
}
