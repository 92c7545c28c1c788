//! The library's functions, of the archive that is linked or of another one, and read one as limit.c has it. A slice passes as a pointer and a
//! length in elements.

use crate::call::{Call, Operation, Refusal};
use crate::shared::Shared;

mod raw {
    extern "C" {
        pub fn pinhkray_read_one(text: *const u8, text_len: usize, out: *mut u32, out_len: usize, words: *mut u64, next: *mut u64) -> u32;
        pub fn pinhkray_read_all(text: *const u8, text_len: usize, out: *mut u32, out_len: usize, expressions: *mut u64, words: *mut u64) -> u32;
        pub fn pinhkray_sort(
            text: *const u8, text_len: usize, tree: *mut u32, tree_len: usize, out: *mut u32, out_len: usize, words: *mut u64,
        ) -> u32;
        pub fn pinhkray_expression(
            text: *const u8, text_len: usize, tree: *mut u32, tree_len: usize, out: *mut u32, out_len: usize,
            count: u64, words: *mut u64, count_after: *mut u64,
        ) -> u32;
        pub fn pinhkray_bind(
            text: *const u8, text_len: usize, tree: *mut u32, tree_len: usize, out: *mut u32, out_len: usize,
            count: u64, words: *mut u64, count_after: *mut u64,
        ) -> u32;
        pub fn pinhkray_solution(
            text: *const u8, text_len: usize, tree: *mut u32, tree_len: usize, draft: *mut u32, draft_len: usize, out: *mut u32, out_len: usize,
            count: u64, words: *mut u64, count_after: *mut u64,
        ) -> u32;
        pub fn pinhkray_flatten(words_in: *const u32, words_in_len: usize, out: *mut u32, out_len: usize, words: *mut u64) -> u32;
        pub fn pinhkray_smtlib(
            words: *const u32, words_len: usize, text: *const u8, text_len: usize, out: *mut u8, out_len: usize, bytes: *mut u64,
        ) -> u32;
        #[cfg(flux_source)]
        pub fn limit_read_one(text: *const u8, text_len: usize, out: *mut u32, out_len: usize, words: *mut u64, next: *mut u64) -> u32;
    }
}

type Read = unsafe extern "C" fn(*const u8, usize, *mut u32, usize, *mut u64, *mut u64) -> u32;
type Sort = unsafe extern "C" fn(*const u8, usize, *mut u32, usize, *mut u32, usize, *mut u64) -> u32;
type Parse = unsafe extern "C" fn(*const u8, usize, *mut u32, usize, *mut u32, usize, u64, *mut u64, *mut u64) -> u32;
type Solution =
    unsafe extern "C" fn(*const u8, usize, *mut u32, usize, *mut u32, usize, *mut u32, usize, u64, *mut u64, *mut u64) -> u32;
type Flatten = unsafe extern "C" fn(*const u32, usize, *mut u32, usize, *mut u64) -> u32;
type Smtlib = unsafe extern "C" fn(*const u32, usize, *const u8, usize, *mut u8, usize, *mut u64) -> u32;

/// The functions of one archive.
pub struct Archive {
    read_one: Read,
    read_all: Read,
    sort: Sort,
    expression: Parse,
    bind: Parse,
    solution: Solution,
    flatten: Flatten,
    smtlib: Smtlib,
}

/// The archive that is linked.
pub const LINKED: Archive = Archive {
    read_one: raw::pinhkray_read_one,
    read_all: raw::pinhkray_read_all,
    sort: raw::pinhkray_sort,
    expression: raw::pinhkray_expression,
    bind: raw::pinhkray_bind,
    solution: raw::pinhkray_solution,
    flatten: raw::pinhkray_flatten,
    smtlib: raw::pinhkray_smtlib,
};

/// The same, but for read one, which is the loop of limit.c. It is beside the source in all that is measured.
#[cfg(flux_source)]
pub const BY_HAND: Archive = Archive { read_one: raw::limit_read_one, ..LINKED };

/// The refusal, 0 if accepted, the two numbers reported, and the count after the call.
#[derive(Clone, Copy, Debug, PartialEq, Eq)]
pub struct Reply {
    pub refusal: u32,
    pub a: u64,
    pub b: u64,
    pub count: u64,
}

impl Reply {
    /// How the call ended.
    pub fn ended(self) -> Result<(), Refusal> {
        if self.refusal == 0 { Ok(()) } else { Err(self.refusal) }
    }
}

/// Words and count start as what no call leaves, so that a function that does not write them is found out.
fn unwritten(count: u64) -> (u64, u64) {
    (u64::MAX, count.wrapping_sub(1))
}

fn read(function: Read, text: &[u8], out: &mut [u32], count: u64) -> Reply {
    let (mut a, mut b) = (u64::MAX, u64::MAX);
    let refusal = unsafe { function(text.as_ptr(), text.len(), out.as_mut_ptr(), out.len(), &mut a, &mut b) };
    Reply { refusal, a, b, count }
}

fn parse(function: Parse, text: &[u8], tree: &mut [u32], out: &mut [u32], count: u64) -> Reply {
    let (mut a, mut after) = unwritten(count);
    let refusal = unsafe {
        function(text.as_ptr(), text.len(), tree.as_mut_ptr(), tree.len(), out.as_mut_ptr(), out.len(), count, &mut a, &mut after)
    };
    Reply { refusal, a, b: 0, count: after }
}

// What makes a call is inlined, so that a call of the linked archive goes to its function straight.
impl Archive {
    /// The archive that a shared object was made of.
    pub fn of(shared: &Shared) -> Result<Archive, String> {
        Ok(Archive {
            read_one: shared.function(c"pinhkray_read_one", LINKED.read_one)?,
            read_all: shared.function(c"pinhkray_read_all", LINKED.read_all)?,
            sort: shared.function(c"pinhkray_sort", LINKED.sort)?,
            expression: shared.function(c"pinhkray_expression", LINKED.expression)?,
            bind: shared.function(c"pinhkray_bind", LINKED.bind)?,
            solution: shared.function(c"pinhkray_solution", LINKED.solution)?,
            flatten: shared.function(c"pinhkray_flatten", LINKED.flatten)?,
            smtlib: shared.function(c"pinhkray_smtlib", LINKED.smtlib)?,
        })
    }

    /// Makes the call on these slices. What an operation does not report is answered as 0, and its count as it was.
    #[inline(always)]
    pub fn reply(&self, call: &Call, tree: &mut [u32], draft: &mut [u32], out: &mut [u32]) -> Reply {
        let &Call { text, count, .. } = call;
        match call.op {
            Operation::ReadOne => read(self.read_one, text, out, count),
            Operation::ReadAll => read(self.read_all, text, out, count),
            Operation::Sort => {
                let mut a = u64::MAX;
                let refusal = unsafe {
                    (self.sort)(text.as_ptr(), text.len(), tree.as_mut_ptr(), tree.len(), out.as_mut_ptr(), out.len(), &mut a)
                };
                Reply { refusal, a, b: 0, count }
            }
            Operation::Expression => parse(self.expression, text, tree, out, count),
            Operation::Bind => parse(self.bind, text, tree, out, count),
            Operation::Solution => {
                let (mut a, mut after) = unwritten(count);
                let refusal = unsafe {
                    (self.solution)(
                        text.as_ptr(), text.len(), tree.as_mut_ptr(), tree.len(), draft.as_mut_ptr(), draft.len(), out.as_mut_ptr(), out.len(),
                        count, &mut a, &mut after,
                    )
                };
                Reply { refusal, a, b: 0, count: after }
            }
        }
    }

    /// Flattens these words. They are lent as if they might be changed, so that a change would be seen.
    #[inline(always)]
    pub fn flatten(&self, words: &mut [u32], out: &mut [u32]) -> Reply {
        let mut a = u64::MAX;
        let refusal = unsafe { (self.flatten)(words.as_mut_ptr(), words.len(), out.as_mut_ptr(), out.len(), &mut a) };
        Reply { refusal, a, b: 0, count: 0 }
    }

    /// Writes the solution of these words as a term. Words and text are lent as if they might be changed, so that a change would be seen.
    #[inline(always)]
    pub fn smtlib(&self, words: &mut [u32], text: &mut [u8], out: &mut [u8]) -> Reply {
        let mut a = u64::MAX;
        let refusal = unsafe {
            (self.smtlib)(words.as_mut_ptr(), words.len(), text.as_mut_ptr(), text.len(), out.as_mut_ptr(), out.len(), &mut a)
        };
        Reply { refusal, a, b: 0, count: 0 }
    }
}

/// The linked archive's reply to the call.
pub fn reply(call: &Call, tree: &mut [u32], draft: &mut [u32], out: &mut [u32]) -> Reply {
    LINKED.reply(call, tree, draft, out)
}

/// The same of flattening.
pub fn flatten(words: &mut [u32], out: &mut [u32]) -> Reply {
    LINKED.flatten(words, out)
}

/// The same of writing a solution as a term.
pub fn smtlib(words: &mut [u32], text: &mut [u8], out: &mut [u8]) -> Reply {
    LINKED.smtlib(words, text, out)
}
