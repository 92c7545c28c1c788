//! All operations held against `parser.rs` and `constraint.rs`, by running both. The source's files are compiled unchanged by `upstream`.

mod answer;
pub mod bench;
mod differences;
mod exprs;
mod flatten;
mod names;
mod reader;
mod sessions;
mod terms;
mod words;

use crate::answers;
use crate::call::EXCEPTED;
use crate::check;
use crate::flattening;
use crate::model::Model;
use crate::parsing::{self, Small};
use crate::random::Random;
use crate::tally::Tally;
use answer::Source;
use std::thread;

/// For terms nested as deep as words may be.
const STACK: usize = 1 << 28;

/// Runs where terms of any depth have room.
fn roomy<R: Send>(all: impl FnOnce() -> Result<R, String> + Send) -> Result<R, String> {
    thread::scope(|scope| {
        let big = thread::Builder::new().stack_size(STACK).spawn_scoped(scope, all);
        big.map_err(|e| e.to_string())?.join().map_err(|_| "the source's thread ended early".to_string())?
    })
}

/// Holds all operations against the source, on texts and lists up to these sizes and in so many random calls.
pub fn run(small: Small, words: usize, random: u64, r: &mut Random) -> Result<Tally, String> {
    roomy(|| {
        let parsed = parsing::run::<Source>("the source", small, random / 2, r)?;
        let flattened = flattening::run("the source", flatten::flatten, &[&[]], words, random / 4, r)?;
        let sessions = sessions::run(random / 4, r)?;
        let extremes = parsing::extremes_held::<Source>("the source", r)? + flattening::extremes_held("the source", flatten::flatten, r)?;
        Ok(parsed + flattened + sessions + extremes)
    })
}

/// That the source gives the recorded answers today, but for texts and words that are excepted; how many it gives, and how many there are of
/// these.
pub fn recorded(path: &str) -> Result<(usize, usize), String> {
    let file = std::fs::read_to_string(path).map_err(|e| format!("{path}: {e}"))?;
    let (cases, flattenings) = answers::read(&file);
    roomy(|| {
        let mut excepted = 0;
        for case in &cases {
            let call = case.call();
            let source = Source::new(call.op, call.text);
            if source.excepted() {
                excepted += 1;
                continue;
            }
            let answer = source.answer(&call);
            if answer != case.answer {
                return Err(format!("line {}, {}: the source says {answer:?}, and not {:?}", case.line, check::shown(&call), case.answer));
            }
        }
        for f in &flattenings {
            let answer = flatten::flatten(&f.words, f.out);
            if answer == Err(EXCEPTED) {
                excepted += 1;
            } else if answer != f.answer {
                return Err(format!("line {}, {}: the source says {answer:?}, and not {:?}", f.line, check::shown_words(&f.words, f.out), f.answer));
            }
        }
        Ok((cases.len() + flattenings.len() - excepted, excepted))
    })
}
