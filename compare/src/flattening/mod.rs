//! Flattening of words held against the paper or the source.

pub mod bench;
mod damage;
mod extreme;
mod grower;

use crate::call::{Answer, Call, Operation, Refusal, EXCEPTED};
use crate::check;
use crate::lengths;
use crate::paper;
use crate::parsing;
use crate::random::Random;
use crate::tally::Tally;
pub use damage::damaged;
pub use extreme::words as extremes;
pub use grower::{any, any_word};
use grower::Grower;

/// Words that begin, fill and end expressions, for lists of all their orders.
const ALPHABET: [u32; 11] = [0, 1, 2, 5, 8, 10, 33, 38, 39, 42, 51];

/// The answer to words, and an output of so many; `EXCEPTED` if there is none.
pub type Model = fn(&[u32], usize) -> Result<Answer, Refusal>;

/// Makes calls on words, and counts them.
pub type Held<'a> = &'a dyn Fn(&[u32], &mut Random, &mut Tally) -> Result<(), String>;

/// Holds flattening against a model, on all lists of up to so many words, those behind each of these starts, where the start counts as one, and
/// in so many random calls, and prints how they ended.
pub fn run(name: &str, model: Model, starts: &[&[u32]], small: usize, random: u64, r: &mut Random) -> Result<Tally, String> {
    let mut all = Tally::default();
    for start in starts {
        let most = small - usize::from(!start.is_empty());
        (0..=most).try_for_each(|len| every(model, &mut start.to_vec(), len, r, &mut all))?;
    }
    println!("compare: {name}, Flatten, all lists of up to {small} words: {all}");
    Ok(all + run_held(name, &|words, r, tally| words_held(model, words, r, tally), random, r)?)
}

/// So many random calls with words held in any way.
pub fn run_held(name: &str, held: Held, calls: u64, r: &mut Random) -> Result<Tally, String> {
    let mut tally = Tally::default();
    let extremes = extremes();
    while tally.calls() < calls {
        if r.one_in(3000) {
            let (_, words) = &extremes[r.below(extremes.len())];
            held(words, r, &mut tally)?;
        } else {
            held(&words(r), r, &mut tally)?;
        }
    }
    println!("compare: {name}, Flatten, random words: {tally}");
    Ok(tally)
}

fn every(model: Model, words: &mut Vec<u32>, len: usize, r: &mut Random, tally: &mut Tally) -> Result<(), String> {
    if len == 0 {
        return words_held(model, words, r, tally);
    }
    for word in ALPHABET {
        words.push(word);
        every(model, words, len - 1, r, tally)?;
        words.pop();
    }
    Ok(())
}

fn held(model: Model, words: &[u32], out: usize, tally: &mut Tally) -> Result<(), String> {
    let answer = model(words, out);
    tally.count(&answer);
    check::flatten(words, out, &answer)
}

/// The outputs of the calls on words. Good words with one just long enough; any words with one round what they need.
pub fn outputs(model: Model, words: &[u32], r: &mut Random, mut each: impl FnMut(usize) -> Result<(), String>) -> Result<(), String> {
    let need = match model(words, usize::MAX) {
        Ok(answer) => {
            each(answer.words.len())?;
            answer.words.len()
        }
        Err(_) => r.below(8),
    };
    each(lengths::length(need, r))
}

/// Words held against a model.
fn words_held(model: Model, words: &[u32], r: &mut Random, tally: &mut Tally) -> Result<(), String> {
    if model(words, usize::MAX) == Err(EXCEPTED) {
        tally.except();
        return Ok(());
    }
    outputs(model, words, r, |out| held(model, words, out, tally))
}

/// The deepest and longest words, and those just past the limits, each at least once; prints how they ended.
pub fn extremes_held(name: &str, model: Model, r: &mut Random) -> Result<Tally, String> {
    let mut all = Tally::default();
    extremes().iter().try_for_each(|(_, words)| words_held(model, words, r, &mut all))?;
    println!("compare: {name}, Flatten, the deepest and longest words: {all}");
    Ok(all)
}

fn words(r: &mut Random) -> Vec<u32> {
    match r.below(20) {
        0..=7 => grown(r),
        8..=12 => damaged(grown(r), r),
        13..=15 => grower::chain(r),
        16 => damaged(grower::chain(r), r),
        17 => parsed(r),
        _ => any(r),
    }
}

fn grown(r: &mut Random) -> Vec<u32> {
    let depth = 1 + r.below(7);
    let mut g = Grower::new(r);
    g.expr(depth);
    g.words
}

/// Words that the parser writes for an expression, if the text is one.
fn parsed(r: &mut Random) -> Vec<u32> {
    let text = parsing::text(Operation::Expression, r);
    paper::answer(&Call::roomy(Operation::Expression, &text)).map_or(Vec::new(), |a| a.words)
}
