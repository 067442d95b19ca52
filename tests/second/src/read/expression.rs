//! Expressions: their signs, the grammar, and the checks in order.

use super::name::{is_name_byte, read_name};
use super::{Expr, Reason, MOST_DEPTH, MOST_EXPRESSION_BYTES, MOST_OCCURRENCES};

/// The checks of an expression, each over the whole expression before the next.
pub fn read_expression(bytes: &[u8], labels: &[String]) -> Result<Expr, Reason> {
    if bytes.len() > MOST_EXPRESSION_BYTES {
        return Err(Reason::ExpressionTooLong);
    }
    let tokens = split(bytes).ok_or(Reason::NotInGrammar)?;
    let named = parse(&tokens).ok_or(Reason::NotInGrammar)?;
    if depth(&tokens) > MOST_DEPTH {
        return Err(Reason::TooDeep);
    }
    let numbered = number_labels(named, labels).ok_or(Reason::UnknownLabel)?;
    if occurrences(&tokens) > MOST_OCCURRENCES {
        return Err(Reason::TooManyOccurrences);
    }
    Ok(numbered)
}

#[derive(Clone, Copy, PartialEq, Eq)]
enum Token<'a> {
    Name(&'a str),
    Dot,
    Bar,
    Star,
    Question,
    Open,
    Close,
}

/// The tokens of an expression, or none if some byte has no place in an
/// expression or a longest run of letters, digits and hyphens is no name.
fn split(bytes: &[u8]) -> Option<Vec<Token<'_>>> {
    let mut tokens = Vec::new();
    let mut place = 0;
    while place < bytes.len() {
        let start = place;
        while place < bytes.len() && is_name_byte(bytes[place]) {
            place += 1;
        }
        if place > start {
            tokens.push(Token::Name(read_name(&bytes[start..place])?));
        } else {
            tokens.push(match bytes[place] {
                b'.' => Token::Dot,
                b'|' => Token::Bar,
                b'*' => Token::Star,
                b'?' => Token::Question,
                b'(' => Token::Open,
                b')' => Token::Close,
                _ => return None,
            });
            place += 1;
        }
    }
    Some(tokens)
}

/// The expression the tokens spell, or none if they are not in the grammar.
fn parse<'a>(tokens: &[Token<'a>]) -> Option<Expr<&'a str>> {
    let mut parser = Parser { tokens, place: 0 };
    let expr = parser.alternative()?;
    if parser.place == tokens.len() {
        Some(expr)
    } else {
        None
    }
}

struct Parser<'t, 'a> {
    tokens: &'t [Token<'a>],
    place: usize,
}

impl<'a> Parser<'_, 'a> {
    /// One or more sequences joined by `|`.
    fn alternative(&mut self) -> Option<Expr<&'a str>> {
        let mut parts = vec![self.sequence()?];
        while self.take(Token::Bar) {
            parts.push(self.sequence()?);
        }
        Some(joined(parts, Expr::Alt))
    }

    /// One or more factors joined by `.`.
    fn sequence(&mut self) -> Option<Expr<&'a str>> {
        let mut parts = vec![self.factor()?];
        while self.take(Token::Dot) {
            parts.push(self.factor()?);
        }
        Some(joined(parts, Expr::Seq))
    }

    /// A label name, `()` or an alternative in parentheses, followed by any
    /// number of `*` and `?`.
    fn factor(&mut self) -> Option<Expr<&'a str>> {
        let mut expr = match self.next()? {
            Token::Name(name) => Expr::Label(name),
            Token::Open => {
                if self.take(Token::Close) {
                    Expr::Empty
                } else {
                    let inner = self.alternative()?;
                    if !self.take(Token::Close) {
                        return None;
                    }
                    inner
                }
            }
            _ => return None,
        };
        loop {
            if self.take(Token::Star) {
                expr = Expr::Star(Box::new(expr));
            } else if self.take(Token::Question) {
                expr = Expr::Opt(Box::new(expr));
            } else {
                return Some(expr);
            }
        }
    }

    fn next(&mut self) -> Option<Token<'a>> {
        let token = *self.tokens.get(self.place)?;
        self.place += 1;
        Some(token)
    }

    /// Moves past the token if it is the next one.
    fn take(&mut self, token: Token) -> bool {
        let here = self.tokens.get(self.place) == Some(&token);
        if here {
            self.place += 1;
        }
        here
    }
}

/// One part stands for itself; several are joined.
fn joined<L>(mut parts: Vec<Expr<L>>, join: fn(Vec<Expr<L>>) -> Expr<L>) -> Expr<L> {
    if parts.len() == 1 {
        parts.remove(0)
    } else {
        join(parts)
    }
}

/// How deep the parentheses of a grammatical expression go; `()` counts.
fn depth(tokens: &[Token]) -> usize {
    let mut open: usize = 0;
    let mut deepest = 0;
    for token in tokens {
        match token {
            Token::Open => open += 1,
            Token::Close => open -= 1,
            _ => {}
        }
        deepest = deepest.max(open);
    }
    deepest
}

/// How many label occurrences there are.
fn occurrences(tokens: &[Token]) -> usize {
    tokens.iter().filter(|token| matches!(token, Token::Name(_))).count()
}

/// The expression with label numbers for names, or none if a name is no label.
fn number_labels(expr: Expr<&str>, labels: &[String]) -> Option<Expr> {
    Some(match expr {
        Expr::Empty => Expr::Empty,
        Expr::Label(name) => Expr::Label(labels.iter().position(|label| label == name)?),
        Expr::Alt(parts) => Expr::Alt(number_each(parts, labels)?),
        Expr::Seq(parts) => Expr::Seq(number_each(parts, labels)?),
        Expr::Star(inner) => Expr::Star(Box::new(number_labels(*inner, labels)?)),
        Expr::Opt(inner) => Expr::Opt(Box::new(number_labels(*inner, labels)?)),
    })
}

fn number_each(parts: Vec<Expr<&str>>, labels: &[String]) -> Option<Vec<Expr>> {
    parts.into_iter().map(|part| number_labels(part, labels)).collect()
}
