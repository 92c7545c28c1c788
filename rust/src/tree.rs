//! Trees: what a text is read as.

use crate::limits::MAX_LISTS;
use crate::words::{DecodeError, Decoded, Span, Words};

/// An S-expression.
#[derive(Clone, Debug, PartialEq, Eq, Hash)]
pub enum Tree {
    /// An atom that is nothing else, or an `@` and what follows up to its `)`.
    Symbol(Span),
    /// A string, without its quotes.
    Quoted(Span),
    /// An integer.
    Integer(i128),
    /// A number that is no integer of 128 bits, by its place in the text.
    Decimal(Span),
    /// `true` or `false`.
    Boolean(bool),
    /// A list.
    List(Vec<Tree>),
}

impl Tree {
    /// The tree of all these words.
    pub fn decode(words: &[u32]) -> Result<Tree, DecodeError> {
        Words::whole(words, |words| tree(words, 0))
    }

    /// The trees of all these words, one behind the other.
    pub fn decode_all(words: &[u32]) -> Result<Vec<Tree>, DecodeError> {
        Words::whole(words, |words| {
            let mut trees = Vec::new();
            while !words.is_empty() {
                trees.push(tree(words, 0)?);
            }
            Ok(trees)
        })
    }
}

/// A tree inside so many lists.
fn tree(words: &mut Words, inside: usize) -> Decoded<Tree> {
    Ok(match words.word()? {
        16 => Tree::Symbol(words.span()?),
        17 => Tree::Quoted(words.span()?),
        18 => Tree::Integer(words.wide()? as i128),
        19 => Tree::Decimal(words.span()?),
        20 => Tree::Boolean(words.boolean()?),
        21 if inside < MAX_LISTS => list(words, inside)?,
        21 => return Err(DecodeError::TooDeep(words.at() - 1)),
        _ => return words.unexpected(),
    })
}

/// How many items, how many words they have, and the items.
fn list(words: &mut Words, inside: usize) -> Decoded<Tree> {
    let count = words.word()?;
    let size = words.word()?;
    let first = words.at();
    let mut items = Vec::new();
    for _ in 0..count {
        items.push(tree(words, inside + 1)?);
    }
    match u32::try_from(words.at() - first) {
        Ok(actual) if actual == size => Ok(Tree::List(items)),
        _ => Err(DecodeError::Unexpected(first - 1)),
    }
}
