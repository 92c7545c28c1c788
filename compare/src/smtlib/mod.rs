//! Solutions written as SMT-LIB terms, held against the paper.

pub mod bench;
mod cases;
mod extreme;
mod grower;

use crate::answers;
use crate::call::{Call, Operation};
use crate::check;
use crate::ffi;
use crate::flattening::{any, damaged};
use crate::lengths;
use crate::paper;
use crate::parsing;
use crate::random::Random;
use crate::tally::Tally;
pub use extreme::{solutions as extremes, Extreme};
use grower::Lent;

/// Nodes of which bodies are made, each without the nodes inside it, and a word that is none.
const BODIES: &[&[u32]] = &[
    &[33, 1], &[37, 0, 1], &[34, 1, 1], &[37, 1, 2], &[49, 27], &[49, 0], &[35, 2, 0, 0, 0, 1], &[38, 0, 0], &[38, 0, 1], &[38, 1, 1], &[38, 0, 2],
    &[42, 0], &[42, 1], &[43, 2], &[44], &[48, 0, 1], &[51, 0], &[51, 1, 7, 0, 1], &[52, 7, 0], &[2],
];
/// The same of sorts.
const SORTS: &[&[u32]] = &[
    &[1], &[5], &[6, 3], &[6, 0], &[7, 0, 0], &[8], &[9, 0], &[10, 0, 1], &[10, 1, 1], &[10, 1, 2], &[10, 2, 0, 1, 0], &[10, 2, 1, 1, 1], &[10, 2, 0, 1, 2], &[0],
];
/// The text of these: one byte that a name may have, and one that it may not.
const TEXT: &[u8] = b"x|";

/// Makes calls on a solution's words and a text, and counts them.
pub type Held<'a> = &'a dyn Fn(&[u32], &[u8], &mut Random, &mut Tally) -> Result<(), String>;

/// The recorded answers: the paper gives all of them, and so does the library. How many there were.
pub fn recorded(path: &str) -> Result<usize, String> {
    let file = std::fs::read_to_string(path).map_err(|e| format!("{path}: {e}"))?;
    let cases = cases::read(&file);
    for case in &cases {
        let paper = paper::smtlib(&case.words, &case.text, case.out);
        if paper != case.answer {
            let call = check::shown_solution(&case.words, &case.text, case.out);
            return Err(format!("{path}, line {}, {call}: the paper says {paper:?}, and not {:?}", case.line, case.answer));
        }
        check::smtlib(&case.words, &case.text, case.out, &case.answer).map_err(|e| format!("{path}, line {}, {e}", case.line))?;
    }
    Ok(cases.len())
}

/// Holds the library against the paper, on all bodies and sorts of up to so many nodes and in so many random calls, and prints how they ended.
pub fn run(small: usize, random: u64, r: &mut Random) -> Result<Tally, String> {
    let mut all = Tally::default();
    for nodes in 0..=small {
        every(&mut vec![0], BODIES, nodes, &[], r, &mut all)?;
        every(&mut vec![1, 7, 0], SORTS, nodes, &[33, 1], r, &mut all)?;
    }
    println!("compare: the paper, Smtlib, all bodies and sorts of up to {small} nodes: {all}");
    Ok(all + run_held("the paper", &solution_held, random, r)?)
}

/// So many random calls with solutions held in any way.
pub fn run_held(name: &str, held: Held, calls: u64, r: &mut Random) -> Result<Tally, String> {
    let mut tally = Tally::default();
    let extremes = extremes();
    while tally.calls() < calls {
        if r.one_in(20_000) {
            let Extreme { words, text, .. } = &extremes[r.below(extremes.len())];
            held(words, text, r, &mut tally)?;
        } else {
            let (words, text) = solution(r);
            held(&words, &text, r, &mut tally)?;
        }
    }
    println!("compare: {name}, Smtlib, random solutions: {tally}");
    Ok(tally)
}

/// All lists of so many nodes behind some words, with others behind them.
fn every(words: &mut Vec<u32>, from: &[&[u32]], nodes: usize, behind: &[u32], r: &mut Random, tally: &mut Tally) -> Result<(), String> {
    if nodes == 0 {
        return solution_held(&[words, behind].concat(), TEXT, r, tally);
    }
    let len = words.len();
    for node in from {
        words.extend_from_slice(node);
        every(words, from, nodes - 1, behind, r, tally)?;
        words.truncate(len);
    }
    Ok(())
}

fn held(words: &[u32], text: &[u8], out: usize, tally: &mut Tally) -> Result<(), String> {
    let answer = paper::smtlib(words, text, out);
    tally.count(&answer);
    check::smtlib(words, text, out, &answer)
}

/// The outputs of the calls on a solution. A good one with a slice just long enough, one byte short, and of none; any with one round what it
/// needs.
pub fn outputs(words: &[u32], text: &[u8], r: &mut Random, mut each: impl FnMut(usize) -> Result<(), String>) -> Result<(), String> {
    let need = match paper::smtlib(words, text, usize::MAX) {
        Ok(written) => {
            each(written.len())?;
            match r.below(8) {
                0 => each(written.len() - 1)?,
                1 => each(0)?,
                _ => {}
            }
            written.len()
        }
        Err(_) => r.below(40),
    };
    each(lengths::length(need, r))
}

/// A solution held against the paper.
fn solution_held(words: &[u32], text: &[u8], r: &mut Random, tally: &mut Tally) -> Result<(), String> {
    outputs(words, text, r, |out| held(words, text, out, tally))
}

fn solution(r: &mut Random) -> Lent {
    let faults = Some(r.pick(&[5, 15, 40, 100]));
    match r.below(20) {
        0..=6 => grower::solution(None, r),
        7..=10 => grower::solution(faults, r),
        11..=13 => changed(grower::solution(None, r), r),
        14 => changed(grower::solution(faults, r), r),
        15 => grower::chain(None, r),
        16 => grower::chain(faults, r),
        17 | 18 => parsed(r),
        _ => (any(r), grower::text(faults, r)),
    }
}

fn changed((words, text): Lent, r: &mut Random) -> Lent {
    (damaged(words, r), text)
}

/// The words that the reader writes for a text, if it is a solution.
fn parsed(r: &mut Random) -> Lent {
    let text = parsing::text(Operation::Solution, r);
    let words = paper::answer(&Call::roomy(Operation::Solution, &text)).map_or(Vec::new(), |a| a.words);
    (words, text)
}

/// A term of so many bytes is the longest that is written for a line.
const LONGEST: usize = 1 << 20;

/// For each line of standard input, `WORDS TEXT` as in recorded answers, a line with the library's refusal, or 0 and the term.
pub fn write() -> Result<(), String> {
    let mut out = vec![0; LONGEST];
    for line in std::io::stdin().lines() {
        let line = line.map_err(|e| e.to_string())?;
        let (list, text) = line.split_once(' ').ok_or("words and a text")?;
        let (mut words, mut text) = (answers::words(list), answers::bytes(text));
        let reply = ffi::smtlib(&mut words, &mut text, &mut out);
        println!("{} {}", reply.refusal, String::from_utf8_lossy(&out[..reply.a as usize]));
    }
    Ok(())
}
