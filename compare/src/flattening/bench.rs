//! The time of flattening by how long a chain of applications is, how many arguments each has, and how deep they stand inside one another.
//!
//! The output is as long as the words; a figure is the shortest of the rounds. The rows are as docs/PERFORMANCE.md has them.

use crate::ffi;
use std::hint::black_box;
use std::time::{Duration, Instant};

const ROUNDS: usize = 123;
const NAME: [u32; 3] = [37, 0, 1];

/// An application to so many names, up to its head.
fn applied(names: usize, out: &mut Vec<u32>) {
    out.extend([38, 0, names as u32]);
    (0..names).for_each(|_| out.extend(NAME));
}

/// A chain of applications, each the head of the one before, of so many names each.
fn chain(length: usize, names: usize) -> Vec<u32> {
    let mut out = Vec::new();
    (0..length).for_each(|_| applied(names, &mut out));
    out.extend(NAME);
    out
}

/// An application to so many names inside so many others, each the one argument of the one before; it counts among them.
fn nested(depth: usize, names: usize) -> Vec<u32> {
    let mut out = Vec::new();
    (1..depth).for_each(|_| out.extend([38, 0, 1]));
    applied(names, &mut out);
    (0..depth).for_each(|_| out.extend(NAME));
    out
}

fn time(words: &mut [u32]) -> Duration {
    let mut out = vec![0; words.len()];
    let once = |_| {
        let began = Instant::now();
        let reply = black_box(ffi::flatten(black_box(words), &mut out));
        let time = began.elapsed();
        assert_eq!(reply.refusal, 0);
        time
    };
    (0..ROUNDS).map(once).min().unwrap()
}

fn row(name: &str, mut words: Vec<u32>) {
    let time = time(&mut words);
    println!("| {name} | {} | {:.1} µs | {:.1} ns |", words.len(), time.as_nanos() as f64 / 1e3, time.as_nanos() as f64 / words.len() as f64);
}

pub fn run() {
    println!("| words to flatten | words | time | each word |");
    println!("|---|---|---|---|");
    for names in [10, 100, 1_000, 10_000] {
        row(&format!("a chain of 100 applications to {names} names each"), chain(100, names));
    }
    for length in [1, 64] {
        row(&format!("65,536 names in a chain of {length}"), chain(length, 65_536 / length));
    }
    for depth in [8, 64] {
        row(&format!("65,536 names inside {depth} applications"), nested(depth, 65_536));
    }
}
