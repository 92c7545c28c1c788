//! One call: the library's reply, and every element of the lent slices after it, against what should be.

use crate::call::{Answer, Call, Refusal};
use crate::ffi::{self, Archive, Reply, LINKED};
use std::fmt::LowerHex;

/// So many elements behind each slice are not lent, and must stay as they are.
const BEHIND: usize = 4;

/// What slices are lent of.
pub trait Element: Copy + Default + PartialEq + LowerHex {
    const NAME: &'static str;

    /// One that no answer holds at a place by chance.
    fn pattern(i: usize) -> Self;
}

impl Element for u32 {
    const NAME: &'static str = "word";

    fn pattern(i: usize) -> u32 {
        0xA5A5_0000 ^ (i as u32).wrapping_mul(2_654_435_761)
    }
}

impl Element for u8 {
    const NAME: &'static str = "byte";

    /// Answers in bytes are ASCII.
    fn pattern(i: usize) -> u8 {
        0x80 | (u32::pattern(i) >> 24) as u8
    }
}

/// A slice of so many elements as it is lent, and those behind it.
pub fn filled<T: Element>(len: usize) -> Vec<T> {
    (0..len + BEHIND).map(T::pattern).collect()
}

/// The same after a call that wrote these elements from its start.
fn written<T: Element>(elements: &[T], len: usize) -> Vec<T> {
    let mut slice = filled(len);
    slice[..elements.len()].copy_from_slice(elements);
    slice
}

/// The same after a call that cleared it.
fn cleared<T: Element>(len: usize) -> Vec<T> {
    written(&vec![T::default(); len], len)
}

/// What a call at a count should reply, and an output of so many words after it.
fn expected(count: u64, out: usize, should: &Result<Answer, Refusal>) -> (Reply, Vec<u32>) {
    match should {
        Ok(answer) => (Reply { refusal: 0, a: answer.a, b: answer.b, count: answer.count }, written(&answer.words, out)),
        Err(refusal) => (Reply { refusal: *refusal, a: 0, b: 0, count }, cleared(out)),
    }
}

/// Calls the library, with slices that are filled with a pattern first; the count of the reader that comes back.
pub fn call(call: &Call, should: &Result<Answer, Refusal>) -> Result<u64, String> {
    call_by(&LINKED, call, should)
}

/// The same of any archive.
pub fn call_by(archive: &Archive, call: &Call, should: &Result<Answer, Refusal>) -> Result<u64, String> {
    let [tree_len, draft_len, out_len] = call.lent();
    let (mut tree, mut draft, mut out) = (filled(tree_len), filled(draft_len), filled(out_len));
    let reply = archive.reply(call, &mut tree[..tree_len], &mut draft[..draft_len], &mut out[..out_len]);
    let (good, out_after) = expected(call.count, out_len, should);
    let held = || {
        replied(reply, good)?;
        same("output", &out, &out_after)?;
        same("tree", &tree, &cleared(tree_len))?;
        same("draft", &draft, &cleared(draft_len))
    };
    held().map_err(|e| format!("{}: {e}", shown(call)))?;
    Ok(reply.count)
}

/// The same of flattening, which leaves the words that it reads as they are.
pub fn flatten(words: &[u32], out_len: usize, should: &Result<Answer, Refusal>) -> Result<(), String> {
    let (mut read, mut out) = (words.to_vec(), filled(out_len));
    let reply = ffi::flatten(&mut read, &mut out[..out_len]);
    let (good, out_after) = expected(0, out_len, should);
    let held = || {
        replied(reply, good)?;
        same("output", &out, &out_after)?;
        same("words read", &read, words)
    };
    held().map_err(|e| format!("{}: {e}", shown_words(words, out_len)))
}

/// The same of writing a solution as a term, which leaves the words and the text as they are.
pub fn smtlib(words: &[u32], text: &[u8], out_len: usize, should: &Result<String, Refusal>) -> Result<(), String> {
    let (mut read, mut names, mut out) = (words.to_vec(), text.to_vec(), filled(out_len));
    let reply = ffi::smtlib(&mut read, &mut names, &mut out[..out_len]);
    let (refusal, bytes, out_after) = match should {
        Ok(term) => (0, term.len(), written(term.as_bytes(), out_len)),
        Err(refusal) => (*refusal, 0, cleared(out_len)),
    };
    let held = || {
        replied(reply, Reply { refusal, a: bytes as u64, b: 0, count: 0 })?;
        same("output", &out, &out_after)?;
        same("words read", &read, words)?;
        same("text", &names, text)
    };
    held().map_err(|e| format!("{}: {e}", shown_solution(words, text, out_len)))
}

pub fn replied(reply: Reply, good: Reply) -> Result<(), String> {
    if reply != good {
        return Err(format!("{reply:?}, and not {good:?}"));
    }
    Ok(())
}

pub fn same<T: Element>(slice: &str, is: &[T], should: &[T]) -> Result<(), String> {
    match is.iter().zip(should).position(|(a, b)| a != b) {
        Some(at) => Err(format!("{} {at} of the {slice} is {:x}, and not {:x}", T::NAME, is[at], should[at])),
        None => Ok(()),
    }
}

/// The call, for a message.
pub fn shown(call: &Call) -> String {
    let &Call { op, text, tree, draft, out, count } = call;
    let end = text.len().min(400);
    let more = if end < text.len() { ".." } else { "" };
    format!("{op:?}, tree {tree}, draft {draft}, output {out}, count {count}, text {:?}{more}", String::from_utf8_lossy(&text[..end]))
}

/// The same of flattening.
pub fn shown_words(words: &[u32], out: usize) -> String {
    format!("Flatten, output {out}, {}", first(words))
}

/// The same of writing a solution as a term.
pub fn shown_solution(words: &[u32], text: &[u8], out: usize) -> String {
    let end = text.len().min(400);
    let more = if end < text.len() { ".." } else { "" };
    format!("Smtlib, output {out}, {}, text \"{}\"{more}", first(words), text[..end].escape_ascii())
}

fn first(words: &[u32]) -> String {
    let end = words.len().min(200);
    let more = if end < words.len() { ".." } else { "" };
    format!("words {:x?}{more}", &words[..end])
}
