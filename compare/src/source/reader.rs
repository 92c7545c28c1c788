//! `parser.rs` at work: with hooks that count, and its panics caught.

use super::differences;
use super::terms::{ExprOf, Term, Terms, Var};
use crate::call::{Operation, Refusal};
use std::cell::Cell;
use std::panic::{self, AssertUnwindSafe};
use std::sync::Once;
use upstream::parser::{FromSexp, FromSexpWrapper, ParseError};
use upstream::sexp::Sexp;

/// Accepts every name, as `StringTypes` does, but for the one that tells of a let; `fresh_var` counts.
pub struct Hooks {
    pub next: u128,
}

impl FromSexp<Terms<String>> for Hooks {
    fn fresh_var(&mut self) -> Var<String> {
        self.next += 1;
        Var::Fresh(self.next - 1)
    }

    fn var(&self, name: &str) -> Result<Var<String>, ParseError> {
        if name == differences::LET {
            panic!("{name}");
        }
        Ok(Var::Name(name.to_string()))
    }

    fn kvar(&self, name: &str) -> Result<String, ParseError> {
        Ok(name.to_string())
    }

    fn string(&self, string: &str) -> Result<String, ParseError> {
        Ok(string.to_string())
    }

    fn sort(&self, name: &str) -> Result<String, ParseError> {
        Ok(name.to_string())
    }
}

pub type Reader = FromSexpWrapper<Terms<String>, Hooks>;

/// A new one, with no scope open.
pub fn open(count: u64) -> Reader {
    Hooks { next: count.into() }.into_wrapper()
}

thread_local! {
    /// Whether a panic is the source's, to be caught and told by its message.
    static CAUGHT: Cell<bool> = const { Cell::new(false) };
}

/// The source's panics print nothing.
fn silence() {
    static ONCE: Once = Once::new();
    ONCE.call_once(|| {
        let loud = panic::take_hook();
        panic::set_hook(Box::new(move |info| {
            if !CAUGHT.get() {
                loud(info);
            }
        }));
    });
}

/// What the source returns, its errors and panics as refusals.
fn caught<R>(text: &[u8], parse: impl FnOnce() -> Result<R, ParseError>) -> Result<R, Refusal> {
    silence();
    CAUGHT.set(true);
    let result = panic::catch_unwind(AssertUnwindSafe(parse));
    CAUGHT.set(false);
    match result {
        Ok(result) => result.map_err(|e| differences::error(&e)),
        Err(payload) => {
            let message = payload.downcast_ref::<String>().map(String::as_str).or(payload.downcast_ref::<&str>().copied());
            let message = message.expect("a panic with a message");
            let untold = || panic!("{:?}: parser.rs panics with what no row tells: {message}", String::from_utf8_lossy(text));
            Err(differences::panic(message).unwrap_or_else(untold))
        }
    }
}

/// One of the operations that parse; the text is for a message.
pub fn parse(op: Operation, text: &[u8], reader: &mut Reader, sexp: &Sexp) -> Result<Term, Refusal> {
    caught(text, || match op {
        Operation::Sort => reader.parse_sort(sexp).map(Term::Sort),
        Operation::Expression => reader.parse_expr(sexp).map(Term::Expr),
        Operation::Bind => reader.parse_bind(sexp).map(Term::Bind),
        Operation::Solution => reader.parse_solution(sexp).map(|(parameters, expr)| Term::Solution(parameters, expr)),
        Operation::ReadOne | Operation::ReadAll => panic!("reads and does not parse"),
    })
}

/// The body of a solution that was accepted, before flattening and without its parameters' scope: as many words as with it.
pub fn body(text: &[u8], sexp: &Sexp) -> ExprOf<String> {
    match sexp {
        Sexp::List(items) => caught(text, || open(0).parse_expr(&items[2])).expect("accepted with its parameters"),
        Sexp::Atom(_) => panic!("no solution"),
    }
}
