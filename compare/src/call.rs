//! A call of one operation and what it answers: the common ground of the paper, the source, the recorded answers and the library.

#[derive(Clone, Copy, Debug, PartialEq, Eq)]
pub enum Operation {
    ReadOne,
    ReadAll,
    Sort,
    Expression,
    Bind,
    Solution,
}

impl Operation {
    /// Whether it is lent a tree slice to work in.
    pub fn takes_tree(self) -> bool {
        !matches!(self, Operation::ReadOne | Operation::ReadAll)
    }

    /// Whether it is lent a draft slice besides.
    pub fn takes_draft(self) -> bool {
        self == Operation::Solution
    }
}

/// A text, how many words the lent slices have, and the reader's count before the call.
#[derive(Clone, Copy, Debug)]
pub struct Call<'t> {
    pub op: Operation,
    pub text: &'t [u8],
    pub tree: usize,
    pub draft: usize,
    pub out: usize,
    pub count: u64,
}

impl<'t> Call<'t> {
    /// A call for which no slice is too short, by a reader opened at 0.
    pub fn roomy(op: Operation, text: &'t [u8]) -> Self {
        Call { op, text, tree: usize::MAX, draft: usize::MAX, out: usize::MAX, count: 0 }
    }

    /// How many words of tree, draft and output are lent: of those that the operation does not take, none.
    pub fn lent(&self) -> [usize; 3] {
        let tree = if self.op.takes_tree() { self.tree } else { 0 };
        let draft = if self.op.takes_draft() { self.draft } else { 0 };
        [tree, draft, self.out]
    }
}

/// A refusal's number, from 1 on.
pub type Refusal = u32;

/// No refusal's number: what is asked is excepted, so that there is no answer to hold another against.
pub const EXCEPTED: Refusal = Refusal::MAX;

/// What an accepted call reports and writes.
#[derive(Clone, Debug, PartialEq, Eq)]
pub struct Answer {
    /// Read all: how many expressions; else how many words were written.
    pub a: u64,
    /// Read one: the byte after the expression; read all: how many words were written; else 0.
    pub b: u64,
    /// The reader's count after the call; flattening takes no reader and has 0 here.
    pub count: u64,
    pub words: Vec<u32>,
}
