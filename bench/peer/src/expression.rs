//! Expressions: one pass over the bytes makes Glushkov's automaton and meets
//! every fault.

use crate::bits::Bits;
use crate::names::{key, kind, Kind, Names};
use crate::refusal::{refuse, Result};

/// Place 0 is the start, the others are label occurrences.
pub struct Automaton {
    pub size: usize,
    pub follow: [u64; 64],
    pub enter: [u64; 32],
    pub label: [u8; 64],
    pub accepting: u64,
}

/// A part of an expression.
#[derive(Clone, Copy)]
struct Part {
    nullable: bool,
    first: u64,
    last: u64,
}

const UNIT: Part = Part { nullable: true, first: 0, last: 0 };

/// What stands to the left inside one pair of parentheses.
#[derive(Clone, Copy, Default)]
struct Level {
    alternative: Option<Part>,
    sequence: Option<Part>,
}

struct Parser<'a> {
    bytes: &'a [u8],
    at: usize,
    labels: &'a Names,
    automaton: Automaton,
    occurrences: usize,
    unknown: bool,
    deep: bool,
    levels: Vec<Level>,
    level: Level,
}

/// The automaton of an expression, or the first fault in the order of the
/// checks.
pub fn parse(bytes: &[u8], labels: &Names) -> Result<Automaton> {
    if bytes.len() > 512 {
        return refuse(7);
    }
    let mut parser = Parser::new(bytes, labels);
    let whole = parser.run()?;
    if parser.deep {
        return refuse(7);
    }
    if parser.unknown {
        return refuse(6);
    }
    if parser.occurrences > 63 {
        return refuse(7);
    }
    let mut automaton = parser.automaton;
    automaton.size = parser.occurrences;
    automaton.follow[0] = whole.first;
    automaton.accepting = whole.last | whole.nullable as u64;
    Ok(automaton)
}

impl<'a> Parser<'a> {
    fn new(bytes: &'a [u8], labels: &'a Names) -> Parser<'a> {
        let automaton = Automaton { size: 0, follow: [0; 64], enter: [0; 32], label: [0; 64], accepting: 0 };
        Parser {
            bytes,
            at: 0,
            labels,
            automaton,
            occurrences: 0,
            unknown: false,
            deep: false,
            levels: Vec::new(),
            level: Level::default(),
        }
    }

    #[inline(always)]
    fn peek(&self) -> u8 {
        self.bytes.get(self.at).copied().unwrap_or(0)
    }

    /// A factor is read, then what stands behind it, until the text ends.
    fn run(&mut self) -> Result<Part> {
        loop {
            let Some(factor) = self.factor()? else { continue };
            if let Some(whole) = self.behind(factor)? {
                return Ok(whole);
            }
        }
    }

    /// A name, `()`, or an opening parenthesis, which gives no part yet.
    #[inline(always)]
    fn factor(&mut self) -> Result<Option<Part>> {
        if self.peek() != b'(' {
            return self.name().map(Some);
        }
        self.at += 1;
        self.deep |= self.levels.len() >= 16;
        if self.peek() == b')' {
            self.at += 1;
            return Ok(Some(UNIT));
        }
        self.levels.push(self.level);
        self.level = Level::default();
        Ok(None)
    }

    #[inline(always)]
    fn name(&mut self) -> Result<Part> {
        let from = self.at;
        while kind(self.peek()) != Kind::Other {
            self.at += 1;
        }
        let Some(key) = key(&self.bytes[from..self.at]) else { return refuse(5) };
        let Some(label) = self.labels.find(key) else {
            self.unknown = true;
            return Ok(UNIT);
        };
        Ok(self.leaf(label))
    }

    /// A new occurrence of the label; those above 63 are counted only.
    #[inline(always)]
    fn leaf(&mut self, label: usize) -> Part {
        self.occurrences += 1;
        if self.occurrences > 63 {
            return UNIT;
        }
        let place = 1 << self.occurrences;
        self.automaton.enter[label] |= place;
        self.automaton.label[self.occurrences] = label as u8;
        Part { nullable: false, first: place, last: place }
    }

    /// The marks behind a factor; the whole where the text ends there.
    #[inline(always)]
    fn behind(&mut self, factor: Part) -> Result<Option<Part>> {
        let mut factor = factor;
        loop {
            factor = self.suffixes(factor);
            self.join(factor);
            if self.at == self.bytes.len() {
                return if self.levels.is_empty() { Ok(Some(self.close())) } else { refuse(5) };
            }
            self.at += 1;
            match self.bytes[self.at - 1] {
                b'.' => return Ok(None),
                b'|' => {
                    self.level = Level { alternative: Some(self.close()), sequence: None };
                    return Ok(None);
                }
                b')' => {
                    factor = self.close();
                    let Some(level) = self.levels.pop() else { return refuse(5) };
                    self.level = level;
                }
                _ => return refuse(5),
            }
        }
    }

    #[inline(always)]
    fn suffixes(&mut self, mut part: Part) -> Part {
        loop {
            match self.peek() {
                b'*' => self.link(part.last, part.first),
                b'?' => (),
                _ => return part,
            }
            part.nullable = true;
            self.at += 1;
        }
    }

    /// Each of the places may be followed by all of the others.
    #[inline(always)]
    fn link(&mut self, last: u64, first: u64) {
        for place in Bits(last) {
            self.automaton.follow[place] |= first;
        }
    }

    /// The factor behind the sequence so far.
    #[inline(always)]
    fn join(&mut self, factor: Part) {
        let Some(left) = self.level.sequence else {
            self.level.sequence = Some(factor);
            return;
        };
        self.link(left.last, factor.first);
        self.level.sequence = Some(Part {
            nullable: left.nullable & factor.nullable,
            first: if left.nullable { left.first | factor.first } else { left.first },
            last: if factor.nullable { left.last | factor.last } else { factor.last },
        });
    }

    /// The alternatives so far with the sequence, which stands.
    #[inline(always)]
    fn close(&mut self) -> Part {
        let sequence = self.level.sequence.unwrap_or(UNIT);
        let Some(left) = self.level.alternative else { return sequence };
        Part {
            nullable: left.nullable | sequence.nullable,
            first: left.first | sequence.first,
            last: left.last | sequence.last,
        }
    }
}
