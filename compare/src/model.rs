//! What answers the calls on a text: the paper or the source.

use crate::call::{Answer, Call, Operation, Refusal};

pub trait Model {
    fn new(op: Operation, text: &[u8]) -> Self;

    /// Whether it has no answer to the operation on the text.
    fn excepted(&self) -> bool {
        false
    }

    /// How many words the tree of the first expression has, if the text has one.
    fn tree_words(&self) -> Result<usize, Refusal>;

    /// How many words a solution's body has before flattening, if the text has a solution.
    fn draft_words(&self) -> Result<usize, Refusal>;

    /// The answer to a call of the operation on the text.
    fn answer(&self, call: &Call) -> Result<Answer, Refusal>;
}
