//! Terms put into words: the way back from decoding.

use crate::bind::{Bind, Predicate};
use crate::expr::Expr;
use crate::solution::{Binder, Fresh, Solution};
use crate::sort::{Sort, SortCtor};
use crate::tree::Tree;
use crate::words::Span;

/// What has words.
trait Encode {
    /// Puts the words behind those that are there.
    fn put(&self, out: &mut Vec<u32>);
}

macro_rules! encoded {
    ($($(#[$example:meta])* $term:ident)*) => {$(
        impl $term {
            /// The words of this term, which `decode` takes apart again.
            $(#[$example])*
            ///
            /// # Panics
            ///
            /// If a list that was made by hand has 2^32 items or words, or more: there is no word for their number.
            pub fn encode(&self) -> Vec<u32> {
                let mut out = Vec::new();
                self.put(&mut out);
                out
            }
        }
    )*};
}

encoded! {
    Tree
    Sort
    ///
    /// An expression that was read is flattened by its words:
    ///
    /// ```
    /// use pinhkray::{flatten_owned, Reader};
    ///
    /// let text = b"((((as apply Int) f) a) b)";
    /// let read = Reader::open(0).expression_owned(text)?;
    /// let flat = flatten_owned(&read.encode())?;
    /// assert_eq!(read.with_text(text).to_string(), "(((f : Int) a) b)");
    /// assert_eq!(flat.with_text(text).to_string(), "(f a b)");
    /// # Ok::<(), pinhkray::Refusal>(())
    /// ```
    Expr
    Bind
    Solution
}

impl Tree {
    /// The words of these trees, one behind the other, which [`Tree::decode_all`] takes apart again.
    ///
    /// # Panics
    ///
    /// As [`Tree::encode`].
    pub fn encode_all(trees: &[Tree]) -> Vec<u32> {
        let mut out = Vec::new();
        trees.put(&mut out);
        out
    }
}

fn count(n: usize, out: &mut Vec<u32>) {
    out.push(word(n));
}

/// A number of items or words as a word.
fn word(n: usize) -> u32 {
    u32::try_from(n).expect("less than 2^32 items or words")
}

/// Two words, low then high.
fn long(n: u64, out: &mut Vec<u32>) {
    out.extend([n as u32, (n >> 32) as u32]);
}

/// Four words, lowest first.
fn wide(n: u128, out: &mut Vec<u32>) {
    long(n as u64, out);
    long((n >> 64) as u64, out);
}

fn counted<T: Encode>(terms: &[T], out: &mut Vec<u32>) {
    count(terms.len(), out);
    terms.put(out);
}

/// A kind with its codes, and what is behind them.
fn node<T: Encode + ?Sized>(head: &[u32], rest: &T, out: &mut Vec<u32>) {
    out.extend(head);
    rest.put(out);
}

impl<T: Encode> Encode for [T] {
    fn put(&self, out: &mut Vec<u32>) {
        self.iter().for_each(|term| term.put(out));
    }
}

impl Encode for Span {
    fn put(&self, out: &mut Vec<u32>) {
        out.extend([self.start, self.len]);
    }
}

impl Encode for Fresh {
    fn put(&self, out: &mut Vec<u32>) {
        long(self.0, out);
    }
}

impl Encode for Tree {
    fn put(&self, out: &mut Vec<u32>) {
        match self {
            Tree::Symbol(span) => node(&[16], span, out),
            Tree::Quoted(span) => node(&[17], span, out),
            Tree::Integer(i) => {
                out.push(18);
                wide(*i as u128, out);
            }
            Tree::Decimal(span) => node(&[19], span, out),
            Tree::Boolean(b) => out.extend([20, u32::from(*b)]),
            Tree::List(items) => {
                out.push(21);
                count(items.len(), out);
                // How many words the items have is known when they are put.
                out.push(0);
                let first = out.len();
                items.put(out);
                out[first - 1] = word(out.len() - first);
            }
        }
    }
}

impl Encode for Sort {
    /// A sort may be too deep for a function that calls itself.
    fn put(&self, out: &mut Vec<u32>) {
        let mut rest = vec![self];
        while let Some(sort) = rest.pop() {
            match sort {
                Sort::Int => out.push(1),
                Sort::Bool => out.push(2),
                Sort::Real => out.push(3),
                Sort::Str => out.push(4),
                Sort::BitVec(_) => out.push(5),
                Sort::BvSize(width) => out.extend([6, *width]),
                Sort::Var(index) => {
                    out.push(7);
                    long(*index, out);
                }
                Sort::Func(..) => out.push(8),
                Sort::Abs(index, _) => out.extend([9, *index]),
                Sort::App(constructor, arguments) => {
                    match constructor {
                        SortCtor::Set => out.extend([10, 0]),
                        SortCtor::Map => out.extend([10, 1]),
                        SortCtor::Data(name) => node(&[10, 2], name, out),
                    }
                    count(arguments.len(), out);
                }
            }
            rest.extend(sort.parts().rev());
        }
    }
}

impl Encode for Binder {
    fn put(&self, out: &mut Vec<u32>) {
        self.0.put(out);
        self.1.put(out);
    }
}

impl Encode for Expr {
    fn put(&self, out: &mut Vec<u32>) {
        match self {
            Expr::Numeral(n) => {
                out.push(32);
                wide(*n, out);
            }
            Expr::Boolean(b) => out.extend([33, u32::from(*b)]),
            Expr::String(span) => node(&[34], span, out),
            Expr::BitVec { bits, width } => {
                out.push(35);
                wide(*bits, out);
                out.push(*width);
            }
            Expr::Fresh(number) => node(&[36], number, out),
            Expr::Var(name) => node(&[37], name, out),
            Expr::App {
                arguments,
                output,
                head,
            } => {
                out.extend([38, u32::from(output.is_some())]);
                counted(arguments, out);
                output.iter().for_each(|sort| sort.put(out));
                head.put(out);
            }
            Expr::Neg(e) => node(&[39], &**e, out),
            Expr::BinaryOp(op, es) => node(&[40, op.number()], &es[..], out),
            Expr::IfThenElse(es) => node(&[41], &es[..], out),
            Expr::And(es) => {
                out.push(42);
                counted(es, out);
            }
            Expr::Or(es) => {
                out.push(43);
                counted(es, out);
            }
            Expr::Not(e) => node(&[44], &**e, out),
            Expr::Imp(es) => node(&[45], &es[..], out),
            Expr::Iff(es) => node(&[46], &es[..], out),
            Expr::Atom(relation, es) => node(&[47, relation.number()], &es[..], out),
            Expr::Let {
                name,
                binding,
                body,
            } => {
                node(&[48], name, out);
                binding.put(out);
                body.put(out);
            }
            Expr::ThyFunc(function) => out.extend([49, function.number()]),
            Expr::IsCtor(name, e) => {
                node(&[50], name, out);
                e.put(out);
            }
            Expr::Exists(binders, body) => {
                out.push(51);
                counted(binders, out);
                body.put(out);
            }
            Expr::LetFresh {
                number,
                binding,
                body,
            } => {
                node(&[52], number, out);
                binding.put(out);
                body.put(out);
            }
        }
    }
}

impl Encode for Predicate {
    fn put(&self, out: &mut Vec<u32>) {
        match self {
            Predicate::Kvar(name, arguments) => {
                node(&[64], name, out);
                count(arguments.len(), out);
                arguments.iter().for_each(|name| node(&[37], name, out));
            }
            Predicate::Expr(e) => node(&[65], e, out),
        }
    }
}

impl Encode for Bind {
    fn put(&self, out: &mut Vec<u32>) {
        self.name.put(out);
        self.sort.put(out);
        counted(&self.predicates, out);
    }
}

impl Encode for Solution {
    fn put(&self, out: &mut Vec<u32>) {
        counted(&self.params, out);
        self.body.put(out);
    }
}
