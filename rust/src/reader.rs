//! The reader: one count, and the six operations over slices that the caller lends.

use crate::refusal::Refusal;
use crate::sys;

/// A reader of texts. Its count is the next fresh number: each bound variable takes one, so that no number is bound
/// twice by one reader, and a refused call takes none. It cannot be copied; [`Reader::open`] goes on at a count.
#[derive(Debug, Default, PartialEq, Eq)]
pub struct Reader {
    count: u64,
}

/// What [`Reader::read_one`] reports.
#[derive(Clone, Copy, Debug, PartialEq, Eq)]
pub struct ReadOne {
    /// How many words the expression has.
    pub words: usize,
    /// The byte behind the expression.
    pub next_byte: usize,
}

/// What [`Reader::read_all`] reports.
#[derive(Clone, Copy, Debug, PartialEq, Eq)]
pub struct ReadAll {
    /// How many expressions the text has.
    pub expressions: usize,
    /// How many words they have together.
    pub words: usize,
}

/// What the other operations report.
#[derive(Clone, Copy, Debug, PartialEq, Eq)]
pub struct Written {
    /// How many words were written, from the start of the output; later words stay as they were.
    pub words: usize,
}

impl Reader {
    /// A reader whose first fresh number is the count: 0 for a new one, or where another left off.
    pub fn open(count: u64) -> Reader {
        Reader { count }
    }

    /// The next fresh number.
    pub fn count(&self) -> u64 {
        self.count
    }

    /// Reads the first expression of a text as the words of a [`Tree`](crate::Tree).
    ///
    /// # Panics
    ///
    /// If the linked archive is of another version, and its answer none that this crate knows.
    pub fn read_one(&self, text: &[u8], out: &mut [u32]) -> Result<ReadOne, Refusal> {
        let (words, next) = sys::read_one(text, out)?;
        Ok(ReadOne {
            words: words as usize,
            next_byte: next as usize,
        })
    }

    /// Reads all expressions of a text as the words of [`Tree`](crate::Tree)s, one behind the other.
    ///
    /// # Panics
    ///
    /// If the linked archive is of another version, and its answer none that this crate knows.
    pub fn read_all(&self, text: &[u8], out: &mut [u32]) -> Result<ReadAll, Refusal> {
        let (expressions, words) = sys::read_all(text, out)?;
        Ok(ReadAll {
            expressions: expressions as usize,
            words: words as usize,
        })
    }

    /// The [`Sort`](crate::Sort) that a text begins with. The tree is a working slice, as in the next three, and zero
    /// after every call.
    ///
    /// # Panics
    ///
    /// If the linked archive is of another version, and its answer none that this crate knows.
    pub fn sort(&self, text: &[u8], tree: &mut [u32], out: &mut [u32]) -> Result<Written, Refusal> {
        sys::sort(text, tree, out).map(written)
    }

    /// The [`Expr`](crate::Expr) that a text begins with, not flattened.
    ///
    /// # Panics
    ///
    /// If the linked archive is of another version, and its answer none that this crate knows.
    pub fn expression(
        &mut self,
        text: &[u8],
        tree: &mut [u32],
        out: &mut [u32],
    ) -> Result<Written, Refusal> {
        sys::expression(text, tree, out, &mut self.count).map(written)
    }

    /// The [`Bind`](crate::Bind) that a text begins with: a name, its sort and predicates, not flattened.
    ///
    /// # Panics
    ///
    /// If the linked archive is of another version, and its answer none that this crate knows.
    pub fn bind(
        &mut self,
        text: &[u8],
        tree: &mut [u32],
        out: &mut [u32],
    ) -> Result<Written, Refusal> {
        sys::bind(text, tree, out, &mut self.count).map(written)
    }

    /// The [`Solution`](crate::Solution) that a text begins with, flattened. The draft, a second working slice, takes
    /// the body before flattening.
    ///
    /// # Panics
    ///
    /// If the linked archive is of another version, and its answer none that this crate knows.
    pub fn solution(
        &mut self,
        text: &[u8],
        tree: &mut [u32],
        draft: &mut [u32],
        out: &mut [u32],
    ) -> Result<Written, Refusal> {
        sys::solution(text, tree, draft, out, &mut self.count).map(written)
    }
}

/// Flattens the words of one [`Expr`](crate::Expr): an application whose head is an application becomes one. The output
/// needs no more words than there are.
///
/// # Panics
///
/// If the linked archive is of another version, and its answer none that this crate knows.
pub fn flatten(words: &[u32], out: &mut [u32]) -> Result<Written, Refusal> {
    sys::flatten(words, out).map(written)
}

/// A number of words is at most the length of a slice.
fn written(words: u64) -> Written {
    Written {
        words: words as usize,
    }
}
