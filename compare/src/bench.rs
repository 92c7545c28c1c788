//! The time of solution, by an archive of the library, against that of another way from the text to the flattened term.
//!
//! Both on one computer in one run. The slices are just long enough, but for one row, which is read in slices that are long enough for every
//! text; tree and draft are as the call before left them, cleared, and the output is cleared beforehand. A figure is the median of five turns;
//! in a turn each text's time is the median of its readings, and a row is their mean, or the sum for a build. The table is as
//! docs/PERFORMANCE.md has its own.

use crate::call::{Answer, Call, Operation, Refusal};
use crate::check;
use crate::ffi::Archive;
use crate::many_names;
use crate::model::Model;
use crate::nested;
use crate::paper::Paper;
use crate::random::Random;
use crate::solutions::{self, SOLVED};
use crate::timing::{micros, round_by_round, turns};
use std::fs;
use std::hint::black_box;
use std::time::{Duration, Instant};

const SEED: u64 = 2026;
/// Bytes of a text, how many such texts are read in turn, so that the computer does not know one by heart, and how often each.
const SIZES: [(usize, usize, usize); 4] = [(200, 400, TURN), (2048, 40, TURN), (8192, 10, TURN), (32_768, 4, TURN)];
/// Words of tree, draft and output that are enough for every text.
const LONG: [usize; 3] = [5 * 32_768, 15 * 32_768, 15 * 32_768];
/// Texts of a build: bytes, and how many.
const BUILD: [(usize, usize); 4] = [(200, 240), (2048, 120), (8192, 36), (32_768, 4)];
const BUILD_ROUNDS: usize = 20;
/// Bytes of texts with as many names as they have room for.
const MANY_NAMES: [usize; 3] = [2048, 8192, 32_768];
/// How often a text of a file is read in a turn, and each of several texts.
pub const READINGS: usize = 400;
pub const TURN: usize = 40;

/// Tree, draft and output.
pub type Slices<'a> = [&'a mut [u32]; 3];

/// What solution is timed against.
pub trait Way {
    /// The head of its column.
    const NAME: &'static str;

    /// Whether it accepts the text of a call with slices just long enough, to which this is the paper's answer.
    fn accepts(&self, call: &Call, answer: &Result<Answer, Refusal>) -> bool;

    /// The time of one reading, in these slices if it takes any.
    fn time(&self, text: &str, slices: Slices) -> Duration;
}

/// The time of one reading by an archive.
pub fn time(archive: &Archive, op: Operation, text: &str, [tree, draft, out]: Slices) -> Duration {
    out.fill(0);
    let call = Call::roomy(op, black_box(text.as_bytes()));
    let began = Instant::now();
    black_box(archive.reply(&call, tree, draft, out));
    began.elapsed()
}

/// A text, and slices for it.
struct Case {
    text: String,
    slices: [Vec<u32>; 3],
}

fn lent(slices: &mut [Vec<u32>; 3]) -> Slices<'_> {
    slices.each_mut().map(|slice| &mut slice[..])
}

impl Case {
    /// The library accepts the text as the paper does, and with the same words. Nothing if the other way refuses it.
    fn new(text: String, way: &impl Way) -> Option<Self> {
        let (op, bytes) = (Operation::Solution, text.as_bytes());
        let paper = Paper::new(op, bytes);
        let [tree, draft] = [paper.tree_words(), paper.draft_words()].map(|n| n.expect("accepted"));
        let answer = paper.answer(&Call::roomy(op, bytes));
        let out = answer.as_ref().expect("accepted").words.len();
        let call = Call { op, text: bytes, tree, draft, out, count: 0 };
        check::call(&call, &answer).expect("no difference");
        let accepted = way.accepts(&call, &answer);
        accepted.then(|| Case { text, slices: [tree, draft, out].map(|n| vec![0; n]) })
    }

    fn ours(&mut self, archive: &Archive) -> Duration {
        time(archive, Operation::Solution, &self.text, lent(&mut self.slices))
    }

    fn by(&mut self, way: &impl Way) -> Duration {
        way.time(&self.text, lent(&mut self.slices))
    }
}

fn times(cases: &mut [Case], rounds: usize, ours: &Archive, way: &impl Way) -> (Duration, Duration) {
    turns(|| (round_by_round(cases, rounds, |case| case.ours(ours)), round_by_round(cases, rounds, |case| case.by(way))))
}

/// The same where each text is read in slices for the longest one: tree and draft are cleared to their ends.
fn times_in_long_slices(cases: &mut [Case], rounds: usize, archive: &Archive, way: &impl Way) -> (Duration, Duration) {
    let mut slices = LONG.map(|words| vec![0; words]);
    turns(|| {
        let ours = round_by_round(cases, rounds, |case| time(archive, Operation::Solution, &case.text, lent(&mut slices)));
        let other = round_by_round(cases, rounds, |case| way.time(&case.text, lent(&mut slices)));
        (ours, other)
    })
}

pub fn row(name: &str, bytes: usize, (ours, other): (Duration, Duration), texts: usize) {
    let each = |d: Duration| micros(d) / texts as f64;
    println!("| {name} | {bytes} | {:.1} µs | {:.1} µs | {:.2} |", each(ours), each(other), ours.as_secs_f64() / other.as_secs_f64());
}

/// Those of so many made texts that the other way accepts.
fn cases(bytes: usize, n: usize, r: &mut Random, way: &impl Way) -> Vec<Case> {
    (0..n).filter_map(|_| Case::new(solutions::text(bytes, &SOLVED, r), way)).collect()
}

fn bytes_of(cases: &[Case]) -> usize {
    cases.iter().map(|c| c.text.len()).sum()
}

/// Made solutions of several sizes, those of nested lists, and those in these files, by this archive and by the other way. With a file, none of
/// several sizes.
pub fn run<W: Way>(ours: &Archive, way: &W, paths: &[&str]) -> Result<(), String> {
    println!("| text | bytes | solution | {} | ratio |", W::NAME);
    println!("|---|---|---|---|---|");
    let mut left_out = if paths.is_empty() { made(ours, way) } else { 0 };
    left_out += texts_row("a solution of nested lists", nested::in_turn(nested::BYTES), TURN, ours, way);
    for path in paths {
        let text = fs::read_to_string(path).map_err(|e| format!("{path}: {e}"))?;
        left_out += texts_row(path.rsplit('/').next().unwrap_or(path), vec![text], READINGS, ours, way);
    }
    if left_out > 0 {
        println!("compare: texts left out, since the other way refuses them: {left_out}");
    }
    Ok(())
}

/// A row of some texts that are read in turn; how many were left out.
fn texts_row(name: &str, texts: Vec<String>, rounds: usize, ours: &Archive, way: &impl Way) -> usize {
    let all = texts.len();
    let mut cases: Vec<Case> = texts.into_iter().filter_map(|text| Case::new(text, way)).collect();
    let read = cases.len();
    if read > 0 {
        row(name, bytes_of(&cases) / read, times(&mut cases, rounds, ours, way), read);
    }
    all - read
}

/// How many texts were left out.
fn made(ours: &Archive, way: &impl Way) -> usize {
    let mut r = Random::new(SEED);
    let mut left_out = 0;
    for (bytes, n, rounds) in SIZES {
        let mut cases = cases(bytes, n, &mut r, way);
        left_out += n - cases.len();
        let texts = cases.len().max(1);
        row("a solution", bytes_of(&cases) / texts, times(&mut cases, rounds, ours, way), texts);
        if bytes == SIZES[0].0 {
            row("in slices for 32,768 bytes", bytes_of(&cases) / texts, times_in_long_slices(&mut cases, rounds, ours, way), texts);
        }
    }
    let mut build: Vec<Case> = BUILD.iter().flat_map(|&(bytes, n)| cases(bytes, n, &mut r, way)).collect();
    left_out += BUILD.iter().map(|(_, n)| n).sum::<usize>() - build.len();
    (1..build.len()).for_each(|i| build.swap(i, r.below(i + 1)));
    row(&format!("a build: {} solutions", build.len()), bytes_of(&build), times(&mut build, BUILD_ROUNDS, ours, way), 1);
    for bytes in MANY_NAMES {
        let (text, names) = many_names::solution(bytes);
        left_out += texts_row(&format!("an exists of {names} names"), vec![text], TURN, ours, way);
    }
    left_out
}
