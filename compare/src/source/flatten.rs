//! Flattening: the source's `Expr` built from words, its `uncurry`, and words again.
//!
//! Rows 31 to 33: words are judged here, as the source takes an `Expr` that is whole. Row 34 takes more words than can be tried. Row 36: words
//! with a let of a number are excepted.

use super::differences::fits;
use super::terms::{Binder, ExprOf, SortOf, Var};
use super::words::{Origin, Spans, Words};
use crate::call::{Answer, Refusal, EXCEPTED};
use crate::paper::MAX_NODES;
use upstream::{BinOp, BinRel, Constant, Expr, Quantifier, Sort, SortCtor, ThyFunc};

/// A name is its span here.
type Span = [u32; 2];

/// Words that are no expression.
const MALFORMED: Refusal = 14;
/// An expression inside too many others.
const TOO_DEEP: Refusal = 6;

struct Spelled;

impl Spans<Span> for Spelled {
    fn span(&mut self, _: usize, name: &Span, _: Origin) -> [u32; 2] {
        *name
    }
}

type Read<T> = Result<T, Refusal>;

const OPERATORS: [BinOp; 5] = [BinOp::Add, BinOp::Sub, BinOp::Mul, BinOp::Div, BinOp::Mod];
const RELATIONS: [BinRel; 6] = [BinRel::Eq, BinRel::Ne, BinRel::Gt, BinRel::Ge, BinRel::Lt, BinRel::Le];

/// The words that are still to be read.
struct Rest<'w>(&'w [u32]);

impl Rest<'_> {
    fn word(&mut self) -> Read<u32> {
        let (first, rest) = self.0.split_first().ok_or(MALFORMED)?;
        self.0 = rest;
        Ok(*first)
    }

    fn one_of<T: Copy>(&mut self, of: &[T]) -> Read<T> {
        let word = self.word()?;
        of.get(word as usize).copied().ok_or(MALFORMED)
    }

    fn span(&mut self) -> Read<Span> {
        Ok([self.word()?, self.word()?])
    }

    fn long(&mut self) -> Read<u64> {
        Ok(u64::from(self.word()?) | u64::from(self.word()?) << 32)
    }

    fn wide(&mut self) -> Read<u128> {
        Ok(u128::from(self.long()?) | u128::from(self.long()?) << 64)
    }

    /// A count, and so many of what is read; a count that is too high is met when the words end.
    fn counted<T>(&mut self, read: impl Fn(&mut Self) -> Read<T>) -> Read<Vec<T>> {
        let n = self.word()?;
        (0..n).map(|_| read(self)).collect()
    }

    fn sort(&mut self) -> Read<SortOf<Span>> {
        Ok(match self.word()? {
            1 => Sort::Int,
            2 => Sort::Bool,
            3 => Sort::Real,
            4 => Sort::Str,
            5 => Sort::BitVec(Box::new(self.sort()?)),
            6 => Sort::BvSize(self.word()?),
            7 => Sort::Var(self.long()? as usize),
            8 => Sort::Func(Box::new([self.sort()?, self.sort()?])),
            9 => Sort::Abs(self.word()? as usize, Box::new(self.sort()?)),
            10 => {
                let constructor = match self.word()? {
                    0 => SortCtor::Set,
                    1 => SortCtor::Map,
                    2 => SortCtor::Data(self.span()?),
                    _ => return Err(MALFORMED),
                };
                Sort::App(constructor, self.counted(Self::sort)?)
            }
            _ => return Err(MALFORMED),
        })
    }

    fn binder(&mut self) -> Read<Binder<Span>> {
        Ok((Var::Fresh(self.long()?.into()), self.sort()?))
    }

    /// An expression inside so many others.
    fn expr(&mut self, inside: usize) -> Read<ExprOf<Span>> {
        let kind = self.word()?;
        if kind == 52 {
            return Err(EXCEPTED);
        }
        if !(32..=51).contains(&kind) {
            return Err(MALFORMED);
        }
        if inside == MAX_NODES {
            return Err(TOO_DEEP);
        }
        let child = |rest: &mut Self| rest.expr(inside + 1);
        let one = |rest: &mut Self| child(rest).map(Box::new);
        let two = |rest: &mut Self| -> Read<_> { Ok(Box::new([child(rest)?, child(rest)?])) };
        Ok(match kind {
            32 => Expr::Constant(Constant::Numeral(self.wide()?)),
            33 => Expr::Constant(Constant::Boolean(self.one_of(&[false, true])?)),
            34 => Expr::Constant(Constant::String(self.span()?)),
            35 => Expr::Constant(Constant::BitVec(self.wide()?, self.word()?)),
            36 => Expr::Var(Var::Fresh(self.long()?.into())),
            37 => Expr::Var(Var::Name(self.span()?)),
            38 => {
                let has_sort = self.one_of(&[false, true])?;
                let arguments = self.counted(child)?;
                let output = if has_sort { Some(self.sort()?) } else { None };
                Expr::App(one(self)?, None, arguments, output)
            }
            39 => Expr::Neg(one(self)?),
            40 => Expr::BinaryOp(self.one_of(&OPERATORS)?, two(self)?),
            41 => Expr::IfThenElse(Box::new([child(self)?, child(self)?, child(self)?])),
            42 => Expr::And(self.counted(child)?),
            43 => Expr::Or(self.counted(child)?),
            44 => Expr::Not(one(self)?),
            45 => Expr::Imp(two(self)?),
            46 => Expr::Iff(two(self)?),
            47 => Expr::Atom(self.one_of(&RELATIONS)?, two(self)?),
            48 => Expr::Let(Var::Name(self.span()?), two(self)?),
            49 => Expr::ThyFunc(self.one_of(ThyFunc::ALL)?),
            50 => Expr::IsCtor(Var::Name(self.span()?), one(self)?),
            _ => Expr::Quantifier(Quantifier::Exists, self.counted(Self::binder)?, one(self)?),
        })
    }
}

/// What the source makes of words, with an output of so many.
pub fn flatten(words: &[u32], out: usize) -> Result<Answer, Refusal> {
    let mut rest = Rest(words);
    let expr = rest.expr(0)?;
    if !rest.0.is_empty() {
        return Err(MALFORMED);
    }
    let mut flat = Words::new(Spelled, 0);
    flat.expr(&expr.uncurry());
    fits(flat.words.len(), out)?;
    Ok(Answer { a: flat.words.len() as u64, b: 0, count: 0, words: flat.words })
}
