//! Another archive of the library, as what the time of solution and of read one is taken against. Both are loaded as shared objects: where code
//! lies makes a difference of some percent, and one that is linked lies elsewhere.

use crate::bench::{self, Slices, Way, READINGS, TURN};
use crate::call::{Answer, Call, Operation, Refusal};
use crate::ffi::Archive;
use crate::nested;
use crate::timing::{round_by_round, turns};
use std::fs;
use std::time::Duration;

impl Way for Archive {
    const NAME: &'static str = "before";

    /// With any words.
    fn accepts(&self, call: &Call, _: &Result<Answer, Refusal>) -> bool {
        let [mut tree, mut draft, mut out] = call.lent().map(|n| vec![0; n]);
        self.reply(call, &mut tree, &mut draft, &mut out).refusal == 0
    }

    fn time(&self, text: &str, slices: Slices) -> Duration {
        bench::time(self, Operation::Solution, text, slices)
    }
}

/// A row of texts that are read in turn by read one of both archives, each with an output just long enough.
fn row(name: &str, texts: &[String], rounds: usize, ours: &Archive, other: &Archive) {
    let mut cases: Vec<(&str, Vec<u32>)> = texts.iter().map(|text| (&text[..], vec![0; 5 * text.len()])).collect();
    for (text, out) in &mut cases {
        let words = ours.reply(&Call::roomy(Operation::ReadOne, text.as_bytes()), &mut [], &mut [], out).a;
        out.truncate(words as usize);
    }
    let mut readings = |archive: &Archive| round_by_round(&mut cases, rounds, |(text, out)| bench::time(archive, Operation::ReadOne, text, [&mut [], &mut [], out]));
    let times = turns(|| (readings(ours), readings(other)));
    bench::row(name, texts.iter().map(String::len).sum::<usize>() / texts.len(), times, texts.len());
}

/// The time of read one on solutions of nested lists, and on the texts in these files, by both archives.
pub fn read_one(ours: &Archive, other: &Archive, paths: &[&str]) -> Result<(), String> {
    println!("| text | bytes | read one | before | ratio |");
    println!("|---|---|---|---|---|");
    row("a solution of nested lists", &nested::in_turn(nested::BYTES), TURN, ours, other);
    for path in paths {
        let text = fs::read_to_string(path).map_err(|e| format!("{path}: {e}"))?;
        row(path.rsplit('/').next().unwrap_or(path), &[text], READINGS, ours, other);
    }
    Ok(())
}
