//! The library's functions, and the only unsafe code.
//!
//! Every call below is sound for the same reasons. The library's contracts ask nothing of the caller: for every text,
//! every lent word and every length, also 0, a function ends, reads and writes inside its slices, and keeps no pointer.
//! A slice passes as its pointer and its length in elements, so it is valid for just that length while it is borrowed.
//! What is written is borrowed by `&mut`, so no two of the slices and numbers overlap. All bits are a value of `u8`,
//! `u32` and `u64`. The library has no state of its own, so calls may be made from several threads.

use crate::refusal::Refusal;

mod raw {
    extern "C" {
        pub fn pinhkray_read_one(
            text: *const u8,
            text_len: usize,
            out: *mut u32,
            out_len: usize,
            words: *mut u64,
            next: *mut u64,
        ) -> u32;

        pub fn pinhkray_read_all(
            text: *const u8,
            text_len: usize,
            out: *mut u32,
            out_len: usize,
            expressions: *mut u64,
            words: *mut u64,
        ) -> u32;

        pub fn pinhkray_sort(
            text: *const u8,
            text_len: usize,
            tree: *mut u32,
            tree_len: usize,
            out: *mut u32,
            out_len: usize,
            words: *mut u64,
        ) -> u32;

        pub fn pinhkray_expression(
            text: *const u8,
            text_len: usize,
            tree: *mut u32,
            tree_len: usize,
            out: *mut u32,
            out_len: usize,
            count: u64,
            words: *mut u64,
            count_after: *mut u64,
        ) -> u32;

        pub fn pinhkray_bind(
            text: *const u8,
            text_len: usize,
            tree: *mut u32,
            tree_len: usize,
            out: *mut u32,
            out_len: usize,
            count: u64,
            words: *mut u64,
            count_after: *mut u64,
        ) -> u32;

        pub fn pinhkray_solution(
            text: *const u8,
            text_len: usize,
            tree: *mut u32,
            tree_len: usize,
            draft: *mut u32,
            draft_len: usize,
            out: *mut u32,
            out_len: usize,
            count: u64,
            words: *mut u64,
            count_after: *mut u64,
        ) -> u32;

        pub fn pinhkray_flatten(
            words_in: *const u32,
            words_in_len: usize,
            out: *mut u32,
            out_len: usize,
            words: *mut u64,
        ) -> u32;

        pub fn pinhkray_smtlib(
            words: *const u32,
            words_len: usize,
            text: *const u8,
            text_len: usize,
            out: *mut u8,
            out_len: usize,
            bytes: *mut u64,
        ) -> u32;

        pub fn pinhkray_version() -> u32;
    }
}

/// The number that a function returned: 0 if it accepted. The archive of this version returns no other number than
/// these.
fn accepted(number: u32) -> Result<(), Refusal> {
    match number {
        0 => Ok(()),
        _ => Err(Refusal::from_number(number).expect("the number of a refusal")),
    }
}

/// Words, and the byte behind the expression.
pub fn read_one(text: &[u8], out: &mut [u32]) -> Result<(u64, u64), Refusal> {
    let (mut words, mut next) = (0, 0);
    // SAFETY: two slices and two numbers that are borrowed for the call; nothing more is asked.
    let number = unsafe {
        raw::pinhkray_read_one(
            text.as_ptr(),
            text.len(),
            out.as_mut_ptr(),
            out.len(),
            &mut words,
            &mut next,
        )
    };
    accepted(number).map(|()| (words, next))
}

/// Expressions and words.
pub fn read_all(text: &[u8], out: &mut [u32]) -> Result<(u64, u64), Refusal> {
    let (mut expressions, mut words) = (0, 0);
    // SAFETY: two slices and two numbers that are borrowed for the call; nothing more is asked.
    let number = unsafe {
        raw::pinhkray_read_all(
            text.as_ptr(),
            text.len(),
            out.as_mut_ptr(),
            out.len(),
            &mut expressions,
            &mut words,
        )
    };
    accepted(number).map(|()| (expressions, words))
}

/// Words.
pub fn sort(text: &[u8], tree: &mut [u32], out: &mut [u32]) -> Result<u64, Refusal> {
    let mut words = 0;
    // SAFETY: three slices and a number that are borrowed for the call; nothing more is asked.
    let number = unsafe {
        raw::pinhkray_sort(
            text.as_ptr(),
            text.len(),
            tree.as_mut_ptr(),
            tree.len(),
            out.as_mut_ptr(),
            out.len(),
            &mut words,
        )
    };
    accepted(number).map(|()| words)
}

/// Words; the count is that of the reader before the call, and then after it.
pub fn expression(
    text: &[u8],
    tree: &mut [u32],
    out: &mut [u32],
    count: &mut u64,
) -> Result<u64, Refusal> {
    let (before, mut words) = (*count, 0);
    // SAFETY: three slices and two numbers that are borrowed for the call, the count before it by value; nothing more
    // is asked.
    let number = unsafe {
        raw::pinhkray_expression(
            text.as_ptr(),
            text.len(),
            tree.as_mut_ptr(),
            tree.len(),
            out.as_mut_ptr(),
            out.len(),
            before,
            &mut words,
            count,
        )
    };
    accepted(number).map(|()| words)
}

/// Words; the count is that of the reader before the call, and then after it.
pub fn bind(
    text: &[u8],
    tree: &mut [u32],
    out: &mut [u32],
    count: &mut u64,
) -> Result<u64, Refusal> {
    let (before, mut words) = (*count, 0);
    // SAFETY: three slices and two numbers that are borrowed for the call, the count before it by value; nothing more
    // is asked.
    let number = unsafe {
        raw::pinhkray_bind(
            text.as_ptr(),
            text.len(),
            tree.as_mut_ptr(),
            tree.len(),
            out.as_mut_ptr(),
            out.len(),
            before,
            &mut words,
            count,
        )
    };
    accepted(number).map(|()| words)
}

/// Words; the count is that of the reader before the call, and then after it.
pub fn solution(
    text: &[u8],
    tree: &mut [u32],
    draft: &mut [u32],
    out: &mut [u32],
    count: &mut u64,
) -> Result<u64, Refusal> {
    let (before, mut words) = (*count, 0);
    // SAFETY: four slices and two numbers that are borrowed for the call, the count before it by value; nothing more is
    // asked.
    let number = unsafe {
        raw::pinhkray_solution(
            text.as_ptr(),
            text.len(),
            tree.as_mut_ptr(),
            tree.len(),
            draft.as_mut_ptr(),
            draft.len(),
            out.as_mut_ptr(),
            out.len(),
            before,
            &mut words,
            count,
        )
    };
    accepted(number).map(|()| words)
}

/// Words.
pub fn flatten(words_in: &[u32], out: &mut [u32]) -> Result<u64, Refusal> {
    let mut words = 0;
    // SAFETY: two slices and a number that are borrowed for the call; the words are only read. Nothing more is asked.
    let number = unsafe {
        raw::pinhkray_flatten(
            words_in.as_ptr(),
            words_in.len(),
            out.as_mut_ptr(),
            out.len(),
            &mut words,
        )
    };
    accepted(number).map(|()| words)
}

/// Bytes.
pub fn smtlib(words: &[u32], text: &[u8], out: &mut [u8]) -> Result<u64, Refusal> {
    let mut bytes = 0;
    // SAFETY: three slices and a number that are borrowed for the call; words and text are only read. Nothing more is
    // asked.
    let number = unsafe {
        raw::pinhkray_smtlib(
            words.as_ptr(),
            words.len(),
            text.as_ptr(),
            text.len(),
            out.as_mut_ptr(),
            out.len(),
            &mut bytes,
        )
    };
    accepted(number).map(|()| bytes)
}

pub fn version() -> u32 {
    // SAFETY: it takes nothing.
    unsafe { raw::pinhkray_version() }
}
