//! Terms in a notation for people, near the solver's but not the same: fresh variables are `%0`, an application's output
//! sort stands behind a colon. With the text that was read a name is shown as it is, and without it as its bytes' places,
//! `[8..11]`.

use crate::bind::{Bind, Predicate};
use crate::expr::Expr;
use crate::solution::{Binder, Fresh, Solution};
use crate::sort::{Sort, SortCtor};
use crate::tree::Tree;
use crate::words::Span;
use std::fmt::{Debug, Display, Formatter, Result};

/// A term with the text that its names stand in, to be printed for people: the notation is near the solver's, and not
/// to be read again.
#[derive(Clone, Copy, Debug)]
pub struct WithText<'t, T> {
    term: &'t T,
    text: &'t [u8],
}

/// The notation of a term.
pub trait Show: Sized {
    /// Writes the term, its names by the text if there is one.
    fn show(&self, f: &mut Formatter<'_>, text: Option<&[u8]>) -> Result;
}

impl<T: Show> Display for WithText<'_, T> {
    fn fmt(&self, f: &mut Formatter<'_>) -> Result {
        self.term.show(f, Some(self.text))
    }
}

macro_rules! shown {
    ($($term:ident)*) => {$(
        impl $term {
            /// The same to be printed with its names, which stand in the text that was read.
            pub fn with_text<'t>(&'t self, text: &'t [u8]) -> WithText<'t, $term> {
                WithText { term: self, text }
            }
        }

        impl Display for $term {
            fn fmt(&self, f: &mut Formatter<'_>) -> Result {
                self.show(f, None)
            }
        }
    )*};
}

shown! { Span Tree Sort Expr Predicate Bind Solution }

impl Debug for Sort {
    fn fmt(&self, f: &mut Formatter<'_>) -> Result {
        Display::fmt(self, f)
    }
}

impl Display for Fresh {
    fn fmt(&self, f: &mut Formatter<'_>) -> Result {
        write!(f, "%{}", self.0)
    }
}

impl Show for Span {
    fn show(&self, f: &mut Formatter<'_>, text: Option<&[u8]>) -> Result {
        match text.and_then(|text| self.of(text)) {
            Some(name) => f.write_str(name),
            None => write!(
                f,
                "[{}..{}]",
                self.start,
                u64::from(self.start) + u64::from(self.len)
            ),
        }
    }
}

/// Terms with a space before each.
fn each<'a, T: Show + 'a>(
    f: &mut Formatter<'_>,
    text: Option<&[u8]>,
    terms: impl IntoIterator<Item = &'a T>,
) -> Result {
    terms.into_iter().try_for_each(|term| {
        f.write_str(" ")?;
        term.show(f, text)
    })
}

/// A list that begins with this word.
fn list<'a, T: Show + 'a>(
    f: &mut Formatter<'_>,
    text: Option<&[u8]>,
    word: &str,
    terms: impl IntoIterator<Item = &'a T>,
) -> Result {
    write!(f, "({word}")?;
    each(f, text, terms)?;
    f.write_str(")")
}

fn quoted(f: &mut Formatter<'_>, text: Option<&[u8]>, span: &Span) -> Result {
    f.write_str("\"")?;
    span.show(f, text)?;
    f.write_str("\"")
}

impl Show for Tree {
    fn show(&self, f: &mut Formatter<'_>, text: Option<&[u8]>) -> Result {
        match self {
            Tree::Symbol(span) | Tree::Decimal(span) => span.show(f, text),
            Tree::Quoted(span) => quoted(f, text, span),
            Tree::Integer(i) => write!(f, "{i}"),
            Tree::Boolean(b) => write!(f, "{b}"),
            Tree::List(items) => {
                f.write_str("(")?;
                if let Some((first, others)) = items.split_first() {
                    first.show(f, text)?;
                    each(f, text, others)?;
                }
                f.write_str(")")
            }
        }
    }
}

impl Show for Sort {
    fn show(&self, f: &mut Formatter<'_>, text: Option<&[u8]>) -> Result {
        // The sorts still to come; None closes a list.
        let mut rest = vec![Some(self)];
        let mut gap = "";
        while let Some(next) = rest.pop() {
            let Some(sort) = next else {
                f.write_str(")")?;
                continue;
            };
            f.write_str(gap)?;
            gap = " ";
            let is_list = match sort {
                Sort::BitVec(_) | Sort::Func(..) | Sort::Abs(..) => true,
                Sort::App(SortCtor::Data(_), arguments) => !arguments.is_empty(),
                Sort::App(..) => true,
                _ => false,
            };
            if is_list {
                f.write_str("(")?;
                rest.push(None);
            }
            match sort {
                Sort::Int => f.write_str("Int"),
                Sort::Bool => f.write_str("Bool"),
                Sort::Real => f.write_str("Real"),
                Sort::Str => f.write_str("Str"),
                Sort::BitVec(_) => f.write_str("BitVec"),
                Sort::BvSize(width) => write!(f, "Size{width}"),
                Sort::Var(index) => write!(f, "@({index})"),
                Sort::Func(..) => f.write_str("function"),
                Sort::Abs(index, _) => write!(f, "abs {index}"),
                Sort::App(SortCtor::Set, _) => f.write_str("Set_Set"),
                Sort::App(SortCtor::Map, _) => f.write_str("Map_t"),
                Sort::App(SortCtor::Data(name), _) => name.show(f, text),
            }?;
            rest.extend(sort.parts().rev().map(Some));
        }
        Ok(())
    }
}

impl Show for Expr {
    fn show(&self, f: &mut Formatter<'_>, text: Option<&[u8]>) -> Result {
        match self {
            Expr::Numeral(n) => write!(f, "{n}"),
            Expr::Boolean(b) => write!(f, "{b}"),
            Expr::String(span) => quoted(f, text, span),
            Expr::BitVec { bits, width } => write!(f, "(_ bv{bits} {width})"),
            Expr::Fresh(number) => write!(f, "{number}"),
            Expr::Var(name) => name.show(f, text),
            Expr::App {
                arguments,
                output,
                head,
            } => {
                f.write_str("(")?;
                head.show(f, text)?;
                each(f, text, arguments)?;
                if let Some(sort) = output {
                    f.write_str(" :")?;
                    each(f, text, [sort])?;
                }
                f.write_str(")")
            }
            Expr::Neg(e) => list(f, text, "-", [&**e]),
            Expr::BinaryOp(op, es) => list(f, text, op.spelling(), &**es),
            Expr::IfThenElse(es) => list(f, text, "if", &**es),
            Expr::And(es) => list(f, text, "and", es),
            Expr::Or(es) => list(f, text, "or", es),
            Expr::Not(e) => list(f, text, "not", [&**e]),
            Expr::Imp(es) => list(f, text, "=>", &**es),
            Expr::Iff(es) => list(f, text, "<=>", &**es),
            Expr::Atom(relation, es) => list(f, text, relation.spelling(), &**es),
            Expr::Let {
                name,
                binding,
                body,
            } => {
                f.write_str("(let (")?;
                name.show(f, text)?;
                bound(f, text, binding, body)
            }
            Expr::ThyFunc(function) => f.write_str(function.spelling()),
            Expr::IsCtor(name, e) => {
                f.write_str("(is$")?;
                name.show(f, text)?;
                each(f, text, [&**e])?;
                f.write_str(")")
            }
            Expr::Exists(binders, body) => under(f, text, "exists", binders, body),
            Expr::LetFresh {
                number,
                binding,
                body,
            } => {
                write!(f, "(let ({number}")?;
                bound(f, text, binding, body)
            }
        }
    }
}

/// What a let binds, behind its name or number, and the body.
fn bound(f: &mut Formatter<'_>, text: Option<&[u8]>, binding: &Expr, body: &Expr) -> Result {
    each(f, text, [binding])?;
    f.write_str(")")?;
    each(f, text, [body])?;
    f.write_str(")")
}

/// A word, what it binds, and the body.
fn under(
    f: &mut Formatter<'_>,
    text: Option<&[u8]>,
    word: &str,
    bound: &[Binder],
    body: &Expr,
) -> Result {
    write!(f, "({word} (")?;
    for (i, (number, sort)) in bound.iter().enumerate() {
        let gap = if i == 0 { "" } else { " " };
        write!(f, "{gap}({number}")?;
        each(f, text, [sort])?;
        f.write_str(")")?;
    }
    f.write_str(")")?;
    each(f, text, [body])?;
    f.write_str(")")
}

impl Show for Predicate {
    fn show(&self, f: &mut Formatter<'_>, text: Option<&[u8]>) -> Result {
        match self {
            Predicate::Kvar(name, arguments) => {
                f.write_str("(")?;
                name.show(f, text)?;
                each(f, text, arguments)?;
                f.write_str(")")
            }
            Predicate::Expr(e) => e.show(f, text),
        }
    }
}

impl Show for Bind {
    fn show(&self, f: &mut Formatter<'_>, text: Option<&[u8]>) -> Result {
        f.write_str("((")?;
        self.name.show(f, text)?;
        each(f, text, [&self.sort])?;
        f.write_str(")")?;
        each(f, text, &self.predicates)?;
        f.write_str(")")
    }
}

impl Show for Solution {
    fn show(&self, f: &mut Formatter<'_>, text: Option<&[u8]>) -> Result {
        under(f, text, "lambda", &self.params, &self.body)
    }
}
