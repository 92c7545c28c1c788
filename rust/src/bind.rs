//! Binds.

use crate::expr::{expr, Expr};
use crate::sort::{sort, Sort};
use crate::words::{DecodeError, Decoded, Span, Words};

/// A name, its sort, and predicates that hold of it.
#[derive(Clone, Debug, PartialEq, Eq, Hash)]
pub struct Bind {
    /// The name.
    pub name: Span,
    /// Its sort.
    pub sort: Sort,
    /// What holds.
    pub predicates: Vec<Predicate>,
}

/// A predicate of a bind.
#[derive(Clone, Debug, PartialEq, Eq, Hash)]
pub enum Predicate {
    /// An unknown predicate, by its name with its `$`, over variables.
    Kvar(Span, Vec<Span>),
    /// An expression.
    Expr(Expr),
}

impl Bind {
    /// The bind of all these words.
    pub fn decode(words: &[u32]) -> Result<Bind, DecodeError> {
        Words::whole(words, |words| {
            Ok(Bind {
                name: words.span()?,
                sort: sort(words)?,
                predicates: words.counted(predicate)?,
            })
        })
    }
}

fn predicate(words: &mut Words) -> Decoded<Predicate> {
    match words.word()? {
        64 => Ok(Predicate::Kvar(words.span()?, words.counted(variable)?)),
        65 => Ok(Predicate::Expr(expr(words)?)),
        _ => words.unexpected(),
    }
}

/// An argument is a named variable always.
fn variable(words: &mut Words) -> Decoded<Span> {
    match words.word()? {
        37 => words.span(),
        _ => words.unexpected(),
    }
}
