//! A proved reader of solver solutions.
//!
//! [`Reader`] has the six operations over slices that the caller lends: they write words, and allocate nothing.
//! Every operation also has an owned form, such as [`Reader::solution_owned`], that answers terms: [`Tree`], [`Sort`],
//! [`Expr`], [`Bind`], [`Solution`]. [`flatten`] joins applications of applications in words. A term's `encode` gives
//! its words, and `decode` the term of words. [`smtlib`] and [`Solution::smtlib`] write a solution as a term of SMT-LIB
//! 2.6.
//!
//! Terms print in a notation for people, near the solver's and not to be read again: a bound variable is `%` and its
//! number, and a name is shown as its place in the text, or as it is with `with_text`.
//!
//! What each operation answers, which words it writes and when it refuses is proved of the library that this crate
//! links, for every text and for slices of any length. The decoding of words into terms, their encoding and their
//! printing is plain Rust with tests. A call needs at most 128 KiB of stack, which is tested and not proved; when a
//! tree is read, no function of the library calls itself. The library keeps nothing from call to call.
//!
//! ```
//! use pinhkray::Reader;
//!
//! let text = b"(lambda ((x Int)) (< x 5))";
//! let mut reader = Reader::open(0);
//! let solution = reader.solution_owned(text)?;
//! assert_eq!(solution.to_string(), "(lambda ((%0 Int)) (< %0 5))");
//! assert_eq!(reader.count(), 1);
//! # Ok::<(), pinhkray::Refusal>(())
//! ```

#![deny(unsafe_code)]
#![warn(missing_docs)]

mod bind;
mod codes;
mod encode;
mod expr;
mod limits;
mod owned;
mod reader;
mod refusal;
mod show;
mod smtlib;
mod solution;
mod sort;
#[allow(unsafe_code)]
mod sys;
mod tree;
mod version;
mod words;

pub use bind::{Bind, Predicate};
pub use codes::{BinOp, Relation, ThyFunc};
pub use expr::Expr;
pub use limits::{ANSWER_WORDS, MAX_BYTES, MAX_EXPRESSIONS, MAX_LISTS, TERM_BYTES, TREE_WORDS};
pub use owned::flatten_owned;
pub use reader::{flatten, ReadAll, ReadOne, Reader, Written};
pub use refusal::Refusal;
pub use show::WithText;
pub use smtlib::smtlib;
pub use solution::{Binder, Fresh, Solution};
pub use sort::{Sort, SortCtor};
pub use tree::Tree;
pub use version::{version, VERSION};
pub use words::{DecodeError, Span};
