//! The operations with slices of their own and terms as answers. The slices are long enough for every text within the
//! limits, so that none of these is refused for want of room.

use crate::bind::Bind;
use crate::expr::Expr;
use crate::limits::{ANSWER_WORDS, MAX_BYTES, TREE_WORDS};
use crate::reader::{flatten, Reader};
use crate::refusal::Refusal;
use crate::solution::Solution;
use crate::sort::Sort;
use crate::tree::Tree;
use crate::words::DecodeError;

impl Reader {
    /// The first expression of a text, and the byte behind it.
    ///
    /// # Panics
    ///
    /// If the linked archive is of another version, and its answer none that this crate knows.
    pub fn read_one_owned(&self, text: &[u8]) -> Result<(Tree, usize), Refusal> {
        let mut out = slice(text, TREE_WORDS);
        let read = self.read_one(text, &mut out)?;
        Ok((answered(Tree::decode(&out[..read.words])), read.next_byte))
    }

    /// All expressions of a text.
    ///
    /// # Panics
    ///
    /// If the linked archive is of another version, and its answer none that this crate knows.
    pub fn read_all_owned(&self, text: &[u8]) -> Result<Vec<Tree>, Refusal> {
        let mut out = slice(text, TREE_WORDS);
        let read = self.read_all(text, &mut out)?;
        Ok(answered(Tree::decode_all(&out[..read.words])))
    }

    /// The sort that a text begins with.
    ///
    /// # Panics
    ///
    /// If the linked archive is of another version, and its answer none that this crate knows.
    pub fn sort_owned(&self, text: &[u8]) -> Result<Sort, Refusal> {
        let (mut tree, mut out) = (slice(text, TREE_WORDS), slice(text, ANSWER_WORDS));
        let sort = self.sort(text, &mut tree, &mut out)?;
        Ok(answered(Sort::decode(&out[..sort.words])))
    }

    /// The expression that a text begins with, not flattened.
    ///
    /// # Panics
    ///
    /// If the linked archive is of another version, and its answer none that this crate knows.
    pub fn expression_owned(&mut self, text: &[u8]) -> Result<Expr, Refusal> {
        let (mut tree, mut out) = (slice(text, TREE_WORDS), slice(text, ANSWER_WORDS));
        let expression = self.expression(text, &mut tree, &mut out)?;
        Ok(answered(Expr::decode(&out[..expression.words])))
    }

    /// The bind that a text begins with.
    ///
    /// # Panics
    ///
    /// If the linked archive is of another version, and its answer none that this crate knows.
    pub fn bind_owned(&mut self, text: &[u8]) -> Result<Bind, Refusal> {
        let (mut tree, mut out) = (slice(text, TREE_WORDS), slice(text, ANSWER_WORDS));
        let bind = self.bind(text, &mut tree, &mut out)?;
        Ok(answered(Bind::decode(&out[..bind.words])))
    }

    /// The solution that a text begins with, flattened.
    ///
    /// # Panics
    ///
    /// If the linked archive is of another version, and its answer none that this crate knows.
    pub fn solution_owned(&mut self, text: &[u8]) -> Result<Solution, Refusal> {
        let mut tree = slice(text, TREE_WORDS);
        let (mut draft, mut out) = (slice(text, ANSWER_WORDS), slice(text, ANSWER_WORDS));
        let solution = self.solution(text, &mut tree, &mut draft, &mut out)?;
        Ok(answered(Solution::decode(&out[..solution.words])))
    }
}

/// Flattens the words of one expression, and answers the expression. [`Expr::encode`] gives the words of one that was
/// read.
///
/// # Panics
///
/// If the linked archive is of another version, and its answer none that this crate knows.
pub fn flatten_owned(words: &[u32]) -> Result<Expr, Refusal> {
    let mut out = vec![0; words.len()];
    let flat = flatten(words, &mut out)?;
    Ok(answered(Expr::decode(&out[..flat.words])))
}

/// So many words for each byte. A text over the limit is refused before any word is needed.
fn slice(text: &[u8], words: usize) -> Vec<u32> {
    match text.len() {
        0..=MAX_BYTES => vec![0; words * text.len()],
        _ => Vec::new(),
    }
}

/// An accepted call's words always are those of its answer, if the archive is that of this version.
fn answered<T>(decoded: Result<T, DecodeError>) -> T {
    decoded.expect("the words of an accepted call")
}
