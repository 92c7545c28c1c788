//! What the source answers to the calls on a text, with the limits, refusals and words of document 01.

use super::differences::{count_after, excepted, fits, func_numbers};
use super::names::{self, Atoms, Given, Unknown};
use super::reader::{self, Reader};
use super::terms::Term;
use super::words::{Spans, Words};
use crate::call::{Answer, Call, Operation, Refusal};
use crate::ffi;
use crate::model::Model;
use crate::reading;
use std::collections::HashSet;
use upstream::sexp::Sexp;

/// An accepted text.
struct Parsed {
    term: Term,
    /// The count at which the source began.
    first: u64,
    /// How many numbers it took.
    numbers: u64,
    atoms: Atoms,
    /// How many words the body has before flattening; 0 if this is no solution.
    draft: usize,
    /// What the library answers, for the spans.
    given: Vec<u32>,
}

pub struct Source {
    op: Operation,
    text: Vec<u8>,
    /// What read one answers, or what the operation itself does if it only reads.
    read: Result<Answer, Refusal>,
    /// Nothing if the text is excepted.
    parsed: Option<Result<Parsed, Refusal>>,
}

fn words<S: Spans<String>>(spans: S, raised: u64, write: impl FnOnce(&mut Words<S>)) -> Vec<u32> {
    let mut words = Words::new(spans, raised);
    write(&mut words);
    words.words
}

/// The source goes on from where the reader stands. Nothing if the text is excepted.
fn parsed(op: Operation, text: &[u8], tree: &[u32], by: &mut Reader) -> Option<Result<Parsed, Refusal>> {
    let mut sexp = reading::source::first(text);
    func_numbers(&mut sexp);
    if excepted(op, text, &sexp) {
        return None;
    }
    Some(term(op, text, tree, &sexp, by))
}

fn term(op: Operation, text: &[u8], tree: &[u32], sexp: &Sexp, by: &mut Reader) -> Result<Parsed, Refusal> {
    let first = by.parser.next as u64;
    let term = reader::parse(op, text, by, sexp)?;
    let numbers = (by.parser.next - u128::from(first)) as u64;
    let draft = if op.takes_draft() { words(Unknown, 0, |w| w.expr(&reader::body(text, sexp))).len() } else { 0 };
    let mut given = Vec::new();
    if count_after(first, numbers).is_ok() {
        given = words(Unknown, 0, |w| w.term(&term));
        let call = Call { op, text, tree: tree.len(), draft, out: given.len(), count: first };
        ffi::reply(&call, &mut vec![0; tree.len()], &mut vec![0; draft], &mut given);
    }
    Ok(Parsed { term, first, numbers, atoms: names::atoms(tree), draft, given })
}

impl Source {
    /// By a reader that may have made calls before.
    pub fn by(by: &mut Reader, op: Operation, text: &[u8]) -> Self {
        let read = reading::source::answer(op == Operation::ReadAll, text);
        let parsed = match &read {
            Ok(tree) if op.takes_tree() => parsed(op, text, &tree.words, by),
            Ok(_) => Some(Err(0)),
            Err(refusal) => Some(Err(*refusal)),
        };
        Source { op, text: text.to_vec(), read, parsed }
    }

    fn parsed(&self) -> Result<&Parsed, Refusal> {
        self.parsed.as_ref().expect("not excepted").as_ref().map_err(|r| *r)
    }
}

impl Model for Source {
    /// Each call begins with no scope (row 25) and at a count of its own (row 26): a new reader.
    fn new(op: Operation, text: &[u8]) -> Self {
        Source::by(&mut reader::open(0), op, text)
    }

    fn excepted(&self) -> bool {
        self.parsed.is_none()
    }

    fn tree_words(&self) -> Result<usize, Refusal> {
        self.read.as_ref().map(|tree| tree.words.len()).map_err(|r| *r)
    }

    fn draft_words(&self) -> Result<usize, Refusal> {
        self.parsed().map(|p| p.draft)
    }

    fn answer(&self, call: &Call) -> Result<Answer, Refusal> {
        assert!(call.op == self.op && call.text == self.text);
        let read = self.read.as_ref().map_err(|r| *r)?;
        if !call.op.takes_tree() {
            fits(read.words.len(), call.out)?;
            return Ok(Answer { count: call.count, ..read.clone() });
        }
        fits(read.words.len(), call.tree)?;
        let parsed = self.parsed()?;
        let count = count_after(call.count, parsed.numbers)?;
        fits(parsed.draft, if call.op.takes_draft() { call.draft } else { 0 })?;
        let spans = Given { text: &self.text, atoms: &parsed.atoms, words: &parsed.given, taken: HashSet::new() };
        let words = words(spans, call.count - parsed.first, |w| w.term(&parsed.term));
        fits(words.len(), call.out)?;
        Ok(Answer { a: words.len() as u64, b: 0, count, words })
    }
}
