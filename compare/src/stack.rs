//! The deepest texts and words and the longest lists run in a small stack: it is spent by nesting only, which is limited, and never by length.

use crate::call::{Answer, Call, Operation, Refusal};
use crate::check;
use crate::extreme;
use crate::flattening;
use crate::paper;
use crate::smtlib::{self, Extreme};
use std::thread;

/// What a caller must bring.
pub const BYTES: usize = 128 * 1024;

const OPERATIONS: [Operation; 6] =
    [Operation::ReadOne, Operation::ReadAll, Operation::Sort, Operation::Expression, Operation::Bind, Operation::Solution];

type Should = Result<Answer, Refusal>;

/// The call with slices just long enough, and its answer.
fn exact(op: Operation, text: &[u8]) -> (Call<'_>, Should) {
    let roomy = Call::roomy(op, text);
    let tree = paper::tree_words(text).unwrap_or(0);
    let draft = paper::draft_words(text).unwrap_or(0);
    let out = paper::answer(&roomy).map_or(8, |a| a.words.len());
    let call = Call { tree, draft, out, ..roomy };
    (call, paper::answer(&call))
}

/// A slice just long enough for a solution's term, and the term.
fn term(Extreme { words, text, .. }: &Extreme) -> (usize, Result<String, Refusal>) {
    let answer = paper::smtlib(words, text, usize::MAX);
    (answer.as_ref().map_or(8, String::len), answer)
}

/// Runs in a stack of `BYTES` bytes.
fn small(all: impl FnOnce() -> Result<(), String> + Send) -> Result<(), String> {
    thread::scope(|scope| {
        let small = thread::Builder::new().name("small stack".to_string()).stack_size(BYTES).spawn_scoped(scope, all);
        small.map_err(|e| e.to_string())?.join().map_err(|_| "the small stack's thread ended early".to_string())?
    })
}

/// How many calls ran, and how many of them were accepted. The paper's answers are made outside the small stack, in which only the
/// library runs and what compares its answers, without recursion.
pub fn run() -> Result<(usize, usize), String> {
    let texts = extreme::texts();
    let calls: Vec<_> = texts.iter().flat_map(|(of, text)| OPERATIONS.into_iter().map(move |op| (of, exact(op, text.as_bytes())))).collect();
    let lists = flattening::extremes();
    let flattenings: Vec<_> = lists.iter().map(|(of, words)| (of, words, paper::flatten(words, words.len()))).collect();
    let solutions = smtlib::extremes();
    let terms: Vec<_> = solutions.iter().map(|solution| (solution, term(solution))).collect();
    small(|| {
        calls.iter().try_for_each(|(of, (call, answer))| check::call(call, answer).map(|_| ()).map_err(|e| format!("{of}: {e}")))?;
        flattenings.iter().try_for_each(|(of, words, answer)| check::flatten(words, words.len(), answer).map_err(|e| format!("{of}: {e}")))?;
        terms.iter().try_for_each(|(Extreme { of, words, text }, (out, answer))| check::smtlib(words, text, *out, answer).map_err(|e| format!("{of}: {e}")))
    })?;
    let words = calls.iter().map(|(_, (_, answer))| answer).chain(flattenings.iter().map(|(_, _, answer)| answer));
    let accepted = words.filter(|a| a.is_ok()).count() + terms.iter().filter(|(_, (_, answer))| answer.is_ok()).count();
    Ok((calls.len() + flattenings.len() + terms.len(), accepted))
}
