//! Expressions.

use crate::codes::{BinOp, Relation, ThyFunc};
use crate::limits::MAX_EXPRESSIONS;
use crate::solution::{binders, Binder, Fresh};
use crate::sort::{sort, Sort};
use crate::words::{DecodeError, Decoded, Span, Words};

/// An expression. What is decoded nests at most [`MAX_EXPRESSIONS`] deep.
#[derive(Clone, Debug, PartialEq, Eq, Hash)]
pub enum Expr {
    /// A number; a negative one is the `Neg` of its amount.
    Numeral(u128),
    /// `true` or `false`.
    Boolean(bool),
    /// A string, without its quotes.
    String(Span),
    /// A bit vector.
    BitVec {
        /// Its value.
        bits: u128,
        /// How many bits it has.
        width: u32,
    },
    /// A variable that a solution, an exists or a let binds.
    Fresh(Fresh),
    /// A variable that nothing binds, by its name.
    Var(Span),
    /// An application.
    App {
        /// The arguments, in order.
        arguments: Vec<Expr>,
        /// The sort of the result, if the text gives one.
        output: Option<Sort>,
        /// What is applied.
        head: Box<Expr>,
    },
    /// A number's negative.
    Neg(Box<Expr>),
    /// An operator over two numbers.
    BinaryOp(BinOp, Box<[Expr; 2]>),
    /// Condition, then, else.
    IfThenElse(Box<[Expr; 3]>),
    /// All of these.
    And(Vec<Expr>),
    /// One of these.
    Or(Vec<Expr>),
    /// The contrary.
    Not(Box<Expr>),
    /// The first implies the second.
    Imp(Box<[Expr; 2]>),
    /// Both or none.
    Iff(Box<[Expr; 2]>),
    /// A relation between two expressions.
    Atom(Relation, Box<[Expr; 2]>),
    /// A name for an expression, in another; the name is a `Var` there. Stored words may have it: a text has none, since
    /// its lets are each a `LetFresh`.
    Let {
        /// The name.
        name: Span,
        /// What it stands for.
        binding: Box<Expr>,
        /// Where it stands for it.
        body: Box<Expr>,
    },
    /// A theory function.
    ThyFunc(ThyFunc),
    /// Whether a value is made by this constructor.
    IsCtor(Span, Box<Expr>),
    /// Some values of these sorts make the body true.
    Exists(Vec<Binder>, Box<Expr>),
    /// A variable that stands for an expression in another, and nowhere else: it is not bound in its own binding.
    ///
    /// ```
    /// use pinhkray::{Expr, Fresh, Reader};
    ///
    /// let mut reader = Reader::open(0);
    /// let read = reader.expression_owned(b"(let (x 1) x)")?;
    /// let bound = Expr::LetFresh {
    ///     number: Fresh(0),
    ///     binding: Box::new(Expr::Numeral(1)),
    ///     body: Box::new(Expr::Fresh(Fresh(0))),
    /// };
    /// assert_eq!(read, bound);
    /// assert_eq!(reader.count(), 1);
    /// # Ok::<(), pinhkray::Refusal>(())
    /// ```
    LetFresh {
        /// The variable.
        number: Fresh,
        /// What it stands for.
        binding: Box<Expr>,
        /// Where it stands for it.
        body: Box<Expr>,
    },
}

impl Expr {
    /// The expression of all these words. [`flatten`](crate::flatten) judges words alike: it refuses with 6 where this is
    /// `TooDeep`, and with 14 where it is another error.
    pub fn decode(words: &[u32]) -> Result<Expr, DecodeError> {
        Words::whole(words, expr)
    }
}

/// The expression that the next words are.
pub(crate) fn expr(words: &mut Words) -> Decoded<Expr> {
    inside(words, 0)
}

/// An expression inside so many others. An unknown kind comes before a nesting too deep, and that before the fields.
fn inside(words: &mut Words, others: usize) -> Decoded<Expr> {
    let kind = words.word()?;
    if !(32..=52).contains(&kind) {
        return words.unexpected();
    }
    if others >= MAX_EXPRESSIONS {
        return Err(DecodeError::TooDeep(words.at() - 1));
    }
    let one = |words: &mut Words| inside(words, others + 1);
    let boxed = |words: &mut Words| one(words).map(Box::new);
    let two = |words: &mut Words| Ok(Box::new([one(words)?, one(words)?]));
    Ok(match kind {
        32 => Expr::Numeral(words.wide()?),
        33 => Expr::Boolean(words.boolean()?),
        34 => Expr::String(words.span()?),
        35 => Expr::BitVec {
            bits: words.wide()?,
            width: words.word()?,
        },
        36 => Expr::Fresh(Fresh(words.long()?)),
        37 => Expr::Var(words.span()?),
        38 => {
            let flag = words.boolean()?;
            Expr::App {
                arguments: words.counted(one)?,
                output: flag.then(|| sort(words)).transpose()?,
                head: boxed(words)?,
            }
        }
        39 => Expr::Neg(boxed(words)?),
        40 => Expr::BinaryOp(words.code(BinOp::from_number)?, two(words)?),
        41 => Expr::IfThenElse(Box::new([one(words)?, one(words)?, one(words)?])),
        42 => Expr::And(words.counted(one)?),
        43 => Expr::Or(words.counted(one)?),
        44 => Expr::Not(boxed(words)?),
        45 => Expr::Imp(two(words)?),
        46 => Expr::Iff(two(words)?),
        47 => Expr::Atom(words.code(Relation::from_number)?, two(words)?),
        48 => Expr::Let {
            name: words.span()?,
            binding: boxed(words)?,
            body: boxed(words)?,
        },
        49 => Expr::ThyFunc(words.code(ThyFunc::from_number)?),
        50 => Expr::IsCtor(words.span()?, boxed(words)?),
        51 => Expr::Exists(binders(words)?, boxed(words)?),
        _ => Expr::LetFresh {
            number: Fresh(words.long()?),
            binding: boxed(words)?,
            body: boxed(words)?,
        },
    })
}
