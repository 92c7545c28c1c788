//! The time of writing a solution as a term, beside the time of reading it, and by what takes long: nesting, and the lengths of lists.
//!
//! The slices are just long enough. In the first table the solutions are those of `bench-solution`, with other names where SMT-LIB has no
//! form; both columns are taken turn by turn. A figure is the median of five turns; in a turn each solution's time is the median of its rounds,
//! and a row is their mean. In the second table a figure is the shortest of the rounds. The rows are as docs/PERFORMANCE.md has them.

use crate::call::{Call, Operation};
use crate::ffi;
use crate::paper;
use crate::random::Random;
use crate::solutions::{self, Pools, SOLVED, WRITABLE};
use crate::timing::{micros, round_by_round, turns};
use std::hint::black_box;
use std::time::{Duration, Instant};

const SEED: u64 = 2026;
/// Bytes of a text, how many such texts are read in turn, and how often each.
const SIZES: [(usize, usize, usize); 4] = [(200, 400, 40), (2048, 40, 40), (8192, 10, 40), (32_768, 4, 40)];
const ROUNDS: usize = 23;
const NAME: [u32; 3] = [37, 0, 1];
const TRUE: [u32; 2] = [33, 1];

/// A text and slices for it, the words of its solution, and a slice for its term.
struct Case {
    text: Vec<u8>,
    tree: Vec<u32>,
    draft: Vec<u32>,
    words: Vec<u32>,
    term: Vec<u8>,
}

impl Case {
    /// A solution that is refused is lent as many bytes as its text has.
    fn new(text: String) -> Self {
        let text = text.into_bytes();
        let [tree, draft] = [paper::tree_words(&text), paper::draft_words(&text)].map(|n| vec![0; n.expect("accepted")]);
        let words = paper::answer(&Call::roomy(Operation::Solution, &text)).expect("accepted").words;
        let term = vec![0; paper::smtlib(&words, &text, usize::MAX).map_or(text.len(), |term| term.len())];
        Case { text, tree, draft, words, term }
    }

    fn read(&mut self) -> Duration {
        let call = Call::roomy(Operation::Solution, black_box(&self.text));
        let began = Instant::now();
        black_box(ffi::reply(&call, &mut self.tree, &mut self.draft, &mut self.words));
        began.elapsed()
    }

    fn write(&mut self) -> Duration {
        let began = Instant::now();
        black_box(ffi::smtlib(black_box(&mut self.words), black_box(&mut self.text), &mut self.term));
        began.elapsed()
    }
}

fn solutions(name: &str, pools: &Pools, (bytes, n, rounds): (usize, usize, usize), r: &mut Random) {
    let mut cases: Vec<Case> = (0..n).map(|_| Case::new(solutions::text(bytes, pools, r))).collect();
    let (read, write) = turns(|| (round_by_round(&mut cases, rounds, Case::read), round_by_round(&mut cases, rounds, Case::write)));
    let mean = |of: fn(&Case) -> usize| cases.iter().map(of).sum::<usize>() / n;
    let [text, words, term] = [mean(|c| c.text.len()), mean(|c| c.words.len()), mean(|c| c.term.len())];
    let each = |time: Duration| micros(time) / n as f64;
    println!("| {name} | {text} | {words} | {term} | {:.1} µs | {:.1} µs | {:.2} |", each(read), each(write), write.as_secs_f64() / read.as_secs_f64());
}

/// A solution without parameters, with this body.
fn row(name: &str, body: &[u32], text: &[u8]) {
    solution(name, &[&[0], body].concat(), text);
}

/// A solution with one parameter, of this sort.
fn sorted(name: &str, sort: &[u32]) {
    solution(name, &[&[1, 0, 0], sort, &TRUE].concat(), b"f");
}

fn solution(name: &str, words: &[u32], text: &[u8]) {
    let bytes = paper::smtlib(words, text, usize::MAX).expect("written").len();
    let (mut words, mut text, mut out) = (words.to_vec(), text.to_vec(), vec![0; bytes]);
    let once = |_| {
        let began = Instant::now();
        let reply = black_box(ffi::smtlib(black_box(&mut words), black_box(&mut text), &mut out));
        let time = began.elapsed();
        assert_eq!(reply.refusal, 0);
        time
    };
    let time = (0..ROUNDS).map(once).min().unwrap();
    let each = |n: usize| time.as_nanos() as f64 / n as f64;
    println!("| {name} | {} | {bytes} | {:.1} µs | {:.1} ns | {:.1} ns |", words.len(), micros(time), each(words.len()), each(bytes));
}

/// An application to so many names inside so many others, each the one argument of the one before; it counts among them.
fn nested(depth: usize, names: usize, head: [u32; 3]) -> Vec<u32> {
    [[38, 0, 1].repeat(depth - 1), vec![38, 0, names as u32], NAME.repeat(names), head.repeat(depth)].concat()
}

/// A sort inside so many others, with words before it and behind it in each.
fn nested_sorts(depth: usize, before: &[u32], behind: &[u32]) -> Vec<u32> {
    [before.repeat(depth), vec![1], behind.repeat(depth)].concat()
}

pub fn run() {
    let mut r = Random::new(SEED);
    println!("| solution | text | words | term | solution | smtlib | ratio |");
    println!("|---|---|---|---|---|---|---|");
    SIZES.iter().for_each(|size| solutions("written", &WRITABLE, *size, &mut r));
    solutions("as a solver prints it, most refused with 15", &SOLVED, SIZES[2], &mut r);
    println!();
    println!("| written | words | bytes | time | each word | each byte |");
    println!("|---|---|---|---|---|---|");
    for depth in [1, 8, 64, 126] {
        row(&format!("65,536 names inside {depth} applications"), &nested(depth, 65_536, NAME), b"f");
    }
    let long = [b'f'; 1000];
    for depth in [1, 8, 64, 126] {
        row(&format!("the same, the heads' names of 1,000 bytes, {depth}"), &nested(depth, 65_536, [37, 0, 1000]), &long);
    }
    let beside = [vec![38, 0, 501], NAME.repeat(500)].concat();
    row("126 applications, 500 names beside each", &[beside.repeat(126), TRUE.to_vec(), NAME.repeat(126)].concat(), b"f");
    row("65,536 operands of one And", &[vec![42, 65_536], NAME.repeat(65_536)].concat(), b"f");
    row("one And inside 127 others of one", &[[42, 1].repeat(126), vec![42, 65_536], NAME.repeat(65_536)].concat(), b"f");
    row("10,000 numerals of one digit", &[vec![42, 10_000], [32, 7, 0, 0, 0].repeat(10_000)].concat(), b"");
    row("10,000 numerals of 39 digits", &[vec![42, 10_000], [32, u32::MAX, u32::MAX, u32::MAX, u32::MAX].repeat(10_000)].concat(), b"");
    row("1,000 names of 1,000 bytes", &[vec![42, 1000], [37, 0, 1000].repeat(1000)].concat(), &long);
    sorted("65,536 sorts in one Data sort", &[vec![10, 2, 0, 1, 65_536], vec![1; 65_536]].concat());
    for depth in [1000, 10_000, 100_000] {
        sorted(&format!("a sort inside {depth} Data sorts of one"), &nested_sorts(depth, &[10, 2, 0, 1, 1], &[]));
    }
    for depth in [1000, 2000, 4000] {
        sorted(&format!("a sort inside {depth} Map sorts, as keys"), &nested_sorts(depth, &[10, 1, 2], &[2]));
    }
    for depth in [1000, 10_000, 100_000] {
        sorted(&format!("a sort inside {depth} Map sorts, as values"), &nested_sorts(depth, &[10, 1, 2, 2], &[]));
    }
}
