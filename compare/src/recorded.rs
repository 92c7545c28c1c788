//! The recorded answers: the paper gives all of them, and so does the library.

use crate::answers;
use crate::call::{Answer, Refusal};
use crate::check;
use crate::paper;

fn agrees(line: usize, call: String, paper: &Result<Answer, Refusal>, recorded: &Result<Answer, Refusal>) -> Result<(), String> {
    if paper != recorded {
        return Err(format!("line {line}, {call}: the paper says {paper:?}, and not {recorded:?}"));
    }
    Ok(())
}

/// How many answers were compared.
pub fn run(path: &str) -> Result<usize, String> {
    let file = std::fs::read_to_string(path).map_err(|e| format!("{path}: {e}"))?;
    let (cases, flattenings) = answers::read(&file);
    for case in &cases {
        let call = case.call();
        agrees(case.line, check::shown(&call), &paper::answer(&call), &case.answer)?;
        check::call(&call, &case.answer).map_err(|e| format!("line {}, {e}", case.line))?;
    }
    for f in &flattenings {
        agrees(f.line, check::shown_words(&f.words, f.out), &paper::flatten(&f.words, f.out), &f.answer)?;
        check::flatten(&f.words, f.out, &f.answer).map_err(|e| format!("line {}, {e}", f.line))?;
    }
    Ok(cases.len() + flattenings.len())
}
