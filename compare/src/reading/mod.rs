//! Read one and read all held against `sexp.rs`, by running both; and the read one of limit.c, so that its time may stand beside theirs.

pub mod bench;
mod counting;
mod figure;
pub mod source;
mod texts;

use crate::answers;
use crate::call::{Answer, Call, Operation, Refusal};
use crate::check;
use crate::ffi::BY_HAND;
use crate::random::Random;

/// The source knows no slices: its answer to a call with an output of so many words.
fn fitting(answer: &Result<Answer, Refusal>, out: usize) -> Result<Answer, Refusal> {
    match answer {
        Ok(a) if a.words.len() > out => Err(7),
        _ => answer.clone(),
    }
}

/// The library's answer to a call, and that of limit.c where it has one.
fn held(call: &Call, should: &Result<Answer, Refusal>) -> Result<(), String> {
    check::call(call, should)?;
    if call.op == Operation::ReadOne {
        check::call_by(&BY_HAND, call, should).map_err(|e| format!("limit.c: {e}"))?;
    }
    Ok(())
}

/// Both operations on one text, with outputs of several lengths; how many calls that were.
fn both(text: &[u8], r: &mut Random) -> Result<u64, String> {
    let mut calls = 0;
    for (all, op) in [(false, Operation::ReadOne), (true, Operation::ReadAll)] {
        let answer = source::answer(all, text);
        let need = answer.as_ref().map_or(8, |a| a.words.len());
        let lens = [need, need.saturating_sub(1), need + 1 + r.below(8), r.below(need + 2)];
        for &out in &lens[..if text.len() > 1000 { 2 } else { 4 }] {
            calls += 1;
            held(&Call { op, text, tree: 0, draft: 0, out, count: 0 }, &fitting(&answer, out))?;
        }
    }
    Ok(calls)
}

/// All texts of up to so many pieces.
pub fn every(len: usize, r: &mut Random) -> Result<u64, String> {
    (0..=len).flat_map(texts::Every::new).map(|t| both(&t, r)).sum()
}

/// At least `n` calls on random texts.
pub fn random(n: u64, r: &mut Random) -> Result<u64, String> {
    let mut calls = 0;
    while calls < n {
        let text = match r.below(4000) {
            0 => texts::long(r),
            1..=400 => texts::nested(r),
            401..=2000 => texts::damaged(r),
            _ => texts::grown(r),
        };
        calls += both(&text, r)?;
    }
    Ok(calls)
}

/// That the source gives the recorded answers today; how many there were.
pub fn recorded(path: &str) -> Result<u64, String> {
    let file = std::fs::read_to_string(path).map_err(|e| format!("{path}: {e}"))?;
    let mut n = 0;
    for case in answers::read(&file).0 {
        let all = match case.op {
            Operation::ReadOne => false,
            Operation::ReadAll => true,
            _ => continue,
        };
        let call = case.call();
        let answer = fitting(&source::answer(all, call.text), call.out).map(|a| Answer { count: call.count, ..a });
        if answer != case.answer {
            return Err(format!("line {}, {}: sexp.rs says {answer:?}, and not {:?}", case.line, check::shown(&call), case.answer));
        }
        held(&call, &answer).map_err(|e| format!("line {}, {e}", case.line))?;
        n += 1;
    }
    Ok(n)
}
