//! Lists of calls on one reader, held against one reader of the source's that makes the same calls.

use super::answer::Source;
use super::reader::{self, Reader};
use crate::call::Call;
use crate::check;
use crate::extreme;
use crate::model::Model;
use crate::parsing;
use crate::random::Random;
use crate::sessions::{opened, text, OPERATIONS};
use crate::tally::Tally;

/// At least so many calls in sessions; prints how they ended.
pub fn run(calls: u64, r: &mut Random) -> Result<Tally, String> {
    let mut tally = Tally::default();
    let extremes = extreme::texts();
    let mut sessions = 0;
    while tally.calls() < calls {
        session(&extremes, r, &mut tally)?;
        sessions += 1;
    }
    println!("compare: the source, {sessions} sessions: {tally}");
    Ok(tally)
}

fn session(extremes: &[(String, String)], r: &mut Random, tally: &mut Tally) -> Result<(), String> {
    let start = opened(r);
    let (mut count, mut reader) = (start, reader::open(start));
    let mut given = Vec::new();
    for i in 0..1 + r.below(12) {
        let op = r.pick(&OPERATIONS);
        // Sometimes the text of the call before again.
        if i == 0 || !r.one_in(6) {
            given = text(op, extremes, r);
        }
        let source = Source::new(op, &given);
        if source.excepted() {
            tally.except();
            continue;
        }
        // The slices are made for a call at 0.
        let lent = parsing::needs(&source, op, &given, r).about(r);
        let call = Call { count, ..lent };
        count = one(&call, &mut reader, tally).map_err(|e| format!("call {i} of a reader opened at {start}, {e}"))?;
    }
    Ok(())
}

/// The count after the call, which is also that of the source's reader.
fn one(call: &Call, reader: &mut Reader, tally: &mut Tally) -> Result<u64, String> {
    let answer = Source::by(reader, call.op, call.text).answer(call);
    tally.count(&answer);
    let after = check::call(call, &answer)?;
    match answer {
        Ok(_) if reader.parser.next != u128::from(after) => Err(format!("{}: the source's reader counts {}", check::shown(call), reader.parser.next)),
        Ok(_) => Ok(after),
        Err(_) => {
            // Rows 25 and 26: a refused call leaves no scope and takes no number.
            *reader = reader::open(after);
            Ok(after)
        }
    }
}
