//! Another archive of the library, held against the one that is linked: every answer should be the same.

pub mod bench;
mod both;

use crate::call::Operation;
use crate::ffi::Archive;
use crate::flattening;
use crate::model::Model;
use crate::paper::{self, Paper};
use crate::parsing::{self, Small};
use crate::random::Random;
use crate::smtlib;
use crate::tally::Tally;

const NAME: &str = "the other archive";
/// How a word begins that is the number of a kind.
const KIND: &str = "kind:";

/// The other archive, and what is passed over: a text that contains one of these words, in upper or lower case, and words in which an expression
/// of one of these kinds is met.
struct Beside<'a> {
    other: &'a Archive,
    words: Vec<&'a str>,
    kinds: Vec<u32>,
}

impl Beside<'_> {
    fn passes_over(&self, text: &[u8]) -> bool {
        self.words.iter().any(|word| text.windows(word.len()).any(|part| part.eq_ignore_ascii_case(word.as_bytes())))
    }

    /// The calls of an operation on a text, by both.
    fn text(&self, op: Operation, text: &[u8], r: &mut Random, tally: &mut Tally) -> Result<(), String> {
        if self.passes_over(text) {
            tally.except();
            return Ok(());
        }
        parsing::calls(&Paper::new(op, text), op, text, r, |call| both::call(self.other, call, tally))
    }

    /// The same of flattening.
    fn words(&self, words: &[u32], r: &mut Random, tally: &mut Tally) -> Result<(), String> {
        if self.kinds.iter().any(|kind| paper::meets(*kind, words)) {
            tally.except();
            return Ok(());
        }
        flattening::outputs(paper::flatten, words, r, |out| both::flatten(self.other, words, out, tally))
    }

    /// The same of writing a solution as a term.
    fn solution(&self, words: &[u32], text: &[u8], r: &mut Random, tally: &mut Tally) -> Result<(), String> {
        if self.passes_over(text) || self.kinds.iter().any(|kind| paper::solution_meets(*kind, words, text)) {
            tally.except();
            return Ok(());
        }
        smtlib::outputs(words, text, r, |out| both::smtlib(self.other, words, text, out, tally))
    }
}

/// Holds all functions of the other archive against the linked ones, in so many random calls and behind all texts up to these sizes, and prints
/// how they ended. Half of the random calls are those that parse; the other four functions share the rest. Texts that contain one of the words
/// are passed over, and words to flatten or to write in which an expression of the kind 52 is met where one of the words is `kind:52`.
pub fn run(other: &Archive, words: &[&str], most: Small, calls: u64, r: &mut Random) -> Result<Tally, String> {
    if words.contains(&"") {
        return Err("a word that texts may contain, and not an empty one".to_string());
    }
    let (kinds, words): (Vec<&str>, Vec<&str>) = words.iter().partition(|word| word.starts_with(KIND));
    let number = |word: &str| word[KIND.len()..].parse().map_err(|_| format!("a number behind {KIND}, and not {word}"));
    let kinds = kinds.into_iter().map(number).collect::<Result<_, _>>()?;
    let beside = Beside { other, words, kinds };
    let text = |op, text: &[u8], r: &mut Random, tally: &mut Tally| beside.text(op, text, r, tally);
    let mut all = Tally::default();
    for op in [Operation::ReadOne, Operation::ReadAll] {
        let read = parsing::random(&text, op, calls / 8, r)?;
        println!("compare: {NAME}, {op:?}, random texts: {read}");
        all = all + read;
    }
    let parsed = parsing::run_held(NAME, &text, most, calls / 2, r)?;
    let flattened = flattening::run_held(NAME, &|words, r, tally| beside.words(words, r, tally), calls / 8, r)?;
    let written = smtlib::run_held(NAME, &|words, text, r, tally| beside.solution(words, text, r, tally), calls / 8, r)?;
    Ok(all + parsed + flattened + written)
}
