//! Lists of calls on one reader: each call held against the paper, and against a new reader's answer to the same call.

use crate::call::{Answer, Call, Operation, Refusal};
use crate::check;
use crate::extreme;
use crate::model::Model;
use crate::paper::{self, Fresh, Paper};
use crate::parsing;
use crate::random::Random;
use crate::tally::Tally;

pub const OPERATIONS: [Operation; 8] = [
    Operation::ReadOne,
    Operation::ReadAll,
    Operation::Sort,
    Operation::Expression,
    Operation::Expression,
    Operation::Bind,
    Operation::Solution,
    Operation::Solution,
];

/// Holds at least so many calls in sessions against the paper and new readers, and prints how they ended.
pub fn run(calls: u64, r: &mut Random) -> Result<Tally, String> {
    let mut tally = Tally::default();
    let extremes = extreme::texts();
    let mut sessions = 0;
    while tally.calls() < calls {
        session(&extremes, r, &mut tally)?;
        sessions += 1;
    }
    println!("compare: {sessions} sessions: {tally}");
    Ok(tally)
}

/// A text for the operation, or seldom one of the deepest and longest.
pub fn text(op: Operation, extremes: &[(String, String)], r: &mut Random) -> Vec<u8> {
    if r.one_in(3000) {
        return extremes[r.below(extremes.len())].1.clone().into_bytes();
    }
    parsing::text(op, r)
}

/// Where a reader is opened.
pub fn opened(r: &mut Random) -> u64 {
    match r.below(8) {
        0..=3 => 0,
        4 => r.below(1000) as u64,
        5 => (1 << 32) - 1 - r.below(4) as u64,
        _ => u64::MAX - r.below(12) as u64,
    }
}

fn session(extremes: &[(String, String)], r: &mut Random, tally: &mut Tally) -> Result<(), String> {
    let start = opened(r);
    let mut count = start;
    let mut given = Vec::new();
    for i in 0..1 + r.below(12) {
        let op = r.pick(&OPERATIONS);
        // Sometimes the text of the call before again.
        if i == 0 || !r.one_in(6) {
            given = text(op, extremes, r);
        }
        let call = Call { count, ..parsing::needs(&Paper::new(op, &given), op, &given, r).about(r) };
        count = one(&call, tally).map_err(|e| format!("call {i} of a reader opened at {start}, {e}"))?;
    }
    Ok(())
}

/// One call of the reader, and of a new one; the reader's count after it.
fn one(call: &Call, tally: &mut Tally) -> Result<u64, String> {
    let new_call = Call { count: 0, ..*call };
    let (old, new) = (paper::answer(call), paper::answer(&new_call));
    tally.count(&old);
    let after = check::call(call, &old)?;
    check::call(&new_call, &new)?;
    alike(call, &old, &new).map_err(|e| format!("{}: {e}", check::shown(call)))?;
    Ok(after)
}

/// Whether the old reader's answer follows from the new reader's. What is compared are the paper's answers, which the library gave.
fn alike(call: &Call, old: &Result<Answer, Refusal>, new: &Result<Answer, Refusal>) -> Result<(), String> {
    let n = match paper::answer(&Call { draft: usize::MAX, out: usize::MAX, count: 0, ..*call }) {
        Ok(roomy) => roomy.count,
        Err(refusal) => return told(old == &Err(refusal) && new == &Err(refusal), "an early refusal is not that of a new reader"),
    };
    let Some(after) = call.count.checked_add(n) else {
        return told(old == &Err(13), "numbers are spent, and not refused with 13");
    };
    match (old, new) {
        (Err(7), Err(7)) => Ok(()),
        (Ok(old), Ok(new)) => {
            let fresh = paper::fresh(call).map_err(|r| format!("the paper accepts, and refuses with {r}"))?;
            told((old.a, old.b, old.count) == (new.a, new.b, after) && new.count == n, "what is reported is not that of a new reader")?;
            told(old.words == raised(new, &fresh, call.count), "words differ from a new reader's in more than the fresh numbers")?;
            told(bound(old, &fresh) == (call.count..after).collect::<Vec<_>>(), "the numbers bound are not those from the count on, each once")?;
            told(paper::scoped(call.op, &old.words), "a number is used where it is not bound")
        }
        _ => Err("one reader accepts, and one refuses".to_string()),
    }
}

fn told(holds: bool, message: &str) -> Result<(), String> {
    if holds { Ok(()) } else { Err(message.to_string()) }
}

fn place(fresh: &Fresh) -> usize {
    match *fresh {
        Fresh::Binds(at) | Fresh::Uses(at) => at,
    }
}

/// The fresh number at a place.
fn number(answer: &Answer, fresh: &Fresh) -> u64 {
    let at = place(fresh);
    u64::from(answer.words[at]) | u64::from(answer.words[at + 1]) << 32
}

/// The numbers bound, in order.
fn bound(answer: &Answer, fresh: &[Fresh]) -> Vec<u64> {
    let mut numbers: Vec<u64> = fresh.iter().filter(|f| matches!(f, Fresh::Binds(_))).map(|f| number(answer, f)).collect();
    numbers.sort_unstable();
    numbers
}

/// The words with each fresh number raised by a count.
fn raised(answer: &Answer, fresh: &[Fresh], count: u64) -> Vec<u32> {
    let mut words = answer.words.clone();
    for f in fresh {
        let (at, number) = (place(f), number(answer, f) + count);
        (words[at], words[at + 1]) = (number as u32, (number >> 32) as u32);
    }
    words
}
