//! What the program `solsmt` prints: a solution as a script for a solver.

use super::{answer, smtlib};
use super::refusal::*;
use crate::call::{Call, Operation, Refusal};

/// The program's limits: bytes of its input, words of its slices, bytes of a term.
const BYTES: usize = 8192;
const WORDS: usize = 4096;
const TERM: usize = 65_536;

/// The refusal in a comment, and the definition of a function if there is none.
pub fn script(text: &[u8]) -> String {
    match defined(text) {
        Ok((list, term)) => format!("; 00\n(define-fun solution {list} Bool {term})\n"),
        Err(refusal) => format!("; {refusal:02x}\n"),
    }
}

fn defined(text: &[u8]) -> Result<(String, String), Refusal> {
    if text.len() > BYTES {
        return Err(TOO_LONG);
    }
    let solution = answer(&Call { op: Operation::Solution, text, tree: WORDS, draft: WORDS, out: WORDS, count: 0 })?;
    smtlib::parts(&solution.words, text, TERM)
}
