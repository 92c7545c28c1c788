//! One call by both archives: the replies, and every element of the lent slices after it, those behind them too.

use crate::call::Call;
use crate::check::{self, filled};
use crate::ffi::{Archive, Reply, LINKED};
use crate::tally::Tally;

/// What a call leaves: its reply, and each slice with its name and what lies behind it. The slices were filled with a pattern first.
struct Left {
    reply: Reply,
    words: Vec<(&'static str, Vec<u32>)>,
    bytes: Vec<(&'static str, Vec<u8>)>,
}

impl Left {
    fn same(&self, other: &Left) -> Result<(), String> {
        check::replied(self.reply, other.reply)?;
        self.words.iter().zip(&other.words).try_for_each(|((name, ours), (_, others))| check::same(name, ours, others))?;
        self.bytes.iter().zip(&other.bytes).try_for_each(|((name, ours), (_, others))| check::same(name, ours, others))
    }
}

/// Makes the call by both archives, and counts it if they leave the same.
fn both(other: &Archive, call: impl Fn(&Archive) -> Left, shown: impl FnOnce() -> String, tally: &mut Tally) -> Result<(), String> {
    let (ours, others) = (call(&LINKED), call(other));
    ours.same(&others).map_err(|e| format!("{}: {e}, which the other archive has", shown()))?;
    tally.count(&ours.reply.ended());
    Ok(())
}

pub fn call(other: &Archive, call: &Call, tally: &mut Tally) -> Result<(), String> {
    let [tree_len, draft_len, out_len] = call.lent();
    let left = |archive: &Archive| {
        let (mut tree, mut draft, mut out) = (filled(tree_len), filled(draft_len), filled(out_len));
        let reply = archive.reply(call, &mut tree[..tree_len], &mut draft[..draft_len], &mut out[..out_len]);
        Left { reply, words: vec![("output", out), ("tree", tree), ("draft", draft)], bytes: Vec::new() }
    };
    both(other, left, || check::shown(call), tally)
}

/// The same of flattening.
pub fn flatten(other: &Archive, words: &[u32], out_len: usize, tally: &mut Tally) -> Result<(), String> {
    let left = |archive: &Archive| {
        let (mut read, mut out) = (words.to_vec(), filled(out_len));
        let reply = archive.flatten(&mut read, &mut out[..out_len]);
        Left { reply, words: vec![("output", out), ("words read", read)], bytes: Vec::new() }
    };
    both(other, left, || check::shown_words(words, out_len), tally)
}

/// The same of writing a solution as a term.
pub fn smtlib(other: &Archive, words: &[u32], text: &[u8], out_len: usize, tally: &mut Tally) -> Result<(), String> {
    let left = |archive: &Archive| {
        let (mut read, mut names, mut out) = (words.to_vec(), text.to_vec(), filled(out_len));
        let reply = archive.smtlib(&mut read, &mut names, &mut out[..out_len]);
        Left { reply, words: vec![("words read", read)], bytes: vec![("output", out), ("text", names)] }
    };
    both(other, left, || check::shown_solution(words, text, out_len), tally)
}
