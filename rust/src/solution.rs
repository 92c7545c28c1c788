//! Solutions, and what they, an exists and a let bind.

use crate::expr::{expr, Expr};
use crate::sort::{sort, Sort};
use crate::words::{DecodeError, Decoded, Words};

/// The number of a bound variable. No two variables that one reader binds have the same.
#[derive(Clone, Copy, Debug, PartialEq, Eq, Hash, PartialOrd, Ord)]
pub struct Fresh(pub u64);

/// A bound variable and its sort.
pub type Binder = (Fresh, Sort);

/// A solution: what a predicate over its parameters is.
#[derive(Clone, Debug, PartialEq, Eq, Hash)]
pub struct Solution {
    /// The parameters, in order.
    pub params: Vec<Binder>,
    /// The body, flattened if a reader answered it.
    pub body: Expr,
}

impl Solution {
    /// The solution of all these words.
    pub fn decode(words: &[u32]) -> Result<Solution, DecodeError> {
        Words::whole(words, |words| {
            Ok(Solution {
                params: binders(words)?,
                body: expr(words)?,
            })
        })
    }
}

/// A count, and so many numbers with their sorts.
pub(crate) fn binders(words: &mut Words) -> Decoded<Vec<Binder>> {
    words.counted(|words| Ok((Fresh(words.long()?), sort(words)?)))
}
