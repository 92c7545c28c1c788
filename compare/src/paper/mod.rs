//! What documents 01 and 02 answer, written from the papers, and from the source where they leave it to the source; never from the
//! library's code or definitions, with which it is compared.

mod bind;
mod expr;
mod flatten;
mod judge;
mod number;
mod read;
mod refusal;
mod scope;
mod script;
mod smtlib;
mod solution;
mod sort;
pub mod theory;
mod words;

use crate::call::{Answer, Call, Operation, Refusal};
use crate::model::Model;
use expr::Parser;
pub use flatten::{flatten, meets};
pub use judge::MAX_NODES;
use read::Tree;
pub use read::{MAX_BYTES, MAX_LISTS};
use refusal::*;
pub use scope::scoped;
pub use script::script;
pub use smtlib::{smtlib, solution_meets};
pub use words::Fresh;
use words::Words;

/// An item of a list; one that is missing is met when it is asked for.
fn item<'a, 't>(items: &'a [Tree<'t>], i: usize) -> Result<&'a Tree<'t>, Refusal> {
    items.get(i).ok_or(MALFORMED)
}

fn written(write: impl FnOnce(&mut Words)) -> Words {
    let mut words = Words::default();
    write(&mut words);
    words
}

fn fits(words: &Words, len: usize) -> Result<(), Refusal> {
    if words.words.len() > len {
        return Err(NO_ROOM);
    }
    Ok(())
}

/// The paper's answers to the calls on a text.
pub struct Paper {
    text: Vec<u8>,
}

impl Model for Paper {
    fn new(_: Operation, text: &[u8]) -> Self {
        Paper { text: text.to_vec() }
    }

    fn tree_words(&self) -> Result<usize, Refusal> {
        tree_words(&self.text)
    }

    fn draft_words(&self) -> Result<usize, Refusal> {
        draft_words(&self.text)
    }

    fn answer(&self, call: &Call) -> Result<Answer, Refusal> {
        answer(call)
    }
}

/// How many words the tree of the first expression has, if the text has one.
pub fn tree_words(text: &[u8]) -> Result<usize, Refusal> {
    let (tree, _) = read::one(text)?;
    Ok(written(|w| w.tree(&tree)).words.len())
}

/// How many words a solution's body has before flattening, if the text has a solution.
pub fn draft_words(text: &[u8]) -> Result<usize, Refusal> {
    let (tree, _) = read::one(text)?;
    let solution = solution::solution(&mut Parser::new(0), &tree)?;
    Ok(written(|w| w.expr(&solution.body)).words.len())
}

/// The answer to a call.
pub fn answer(call: &Call) -> Result<Answer, Refusal> {
    let &Call { op, text, out, count, .. } = call;
    match op {
        Operation::ReadOne => {
            let (words, next) = read_one(text, out)?;
            Ok(Answer { a: words.len() as u64, b: next as u64, count, words })
        }
        Operation::ReadAll => {
            let (words, expressions) = read_all(text, out)?;
            Ok(Answer { a: expressions as u64, b: words.len() as u64, count, words })
        }
        _ => {
            let (Words { words, .. }, count) = parsed(call)?;
            Ok(Answer { a: words.len() as u64, b: 0, count, words })
        }
    }
}

/// The fresh numbers in the answer to a call, by their places.
pub fn fresh(call: &Call) -> Result<Vec<Fresh>, Refusal> {
    match call.op {
        Operation::ReadOne | Operation::ReadAll => Ok(Vec::new()),
        _ => Ok(parsed(call)?.0.fresh),
    }
}

/// The words, and the byte after the expression.
fn read_one(text: &[u8], out: usize) -> Result<(Vec<u32>, usize), Refusal> {
    let (tree, next) = read::one(text)?;
    let words = written(|w| w.tree(&tree));
    fits(&words, out)?;
    Ok((words.words, next))
}

/// The words, and how many expressions there are.
fn read_all(text: &[u8], out: usize) -> Result<(Vec<u32>, usize), Refusal> {
    let trees = read::all(text)?;
    let words = written(|w| trees.iter().for_each(|t| w.tree(t)));
    fits(&words, out)?;
    Ok((words.words, trees.len()))
}

/// What read one refuses, with 7 for the tree slice.
fn tree(text: &[u8], len: usize) -> Result<Tree<'_>, Refusal> {
    let (tree, _) = read::one(text)?;
    fits(&written(|w| w.tree(&tree)), len)?;
    Ok(tree)
}

/// The count after the call, when all is read.
fn count_after(parser: &Parser) -> Result<u64, Refusal> {
    parser.next.try_into().map_err(|_| NUMBERS_SPENT)
}

/// The words that one of the parser's operations writes, and the count after the call.
fn parsed(call: &Call) -> Result<(Words, u64), Refusal> {
    let tree = tree(call.text, call.tree)?;
    let mut parser = Parser::new(call.count);
    let words = match call.op {
        Operation::Sort => {
            let sort = sort::sort(&tree)?;
            written(|w| w.sort(&sort))
        }
        Operation::Bind => bind(&mut parser, &tree)?,
        Operation::Solution => solution(&mut parser, &tree, call.draft)?,
        _ => expression(&mut parser, &tree)?,
    };
    fits(&words, call.out)?;
    Ok((words, count_after(&parser)?))
}

fn expression<'t>(parser: &mut Parser<'t>, tree: &Tree<'t>) -> Result<Words, Refusal> {
    let expr = parser.expr(tree)?;
    count_after(parser)?;
    Ok(written(|w| w.expr(&expr)))
}

fn bind<'t>(parser: &mut Parser<'t>, tree: &Tree<'t>) -> Result<Words, Refusal> {
    let bind = bind::bind(parser, tree)?;
    count_after(parser)?;
    Ok(written(|w| w.bind(&bind)))
}

/// The draft takes the body before flattening.
fn solution<'t>(parser: &mut Parser<'t>, tree: &Tree<'t>, draft: usize) -> Result<Words, Refusal> {
    let solution = solution::solution(parser, tree)?;
    count_after(parser)?;
    fits(&written(|w| w.expr(&solution.body)), draft)?;
    let flat = solution::uncurry(solution.body);
    Ok(written(|w| {
        w.binders(&solution.parameters);
        w.expr(&flat);
    }))
}
