//! The time of solution against the source's way from the text to the flattened term: `sexp.rs`, `parser.rs` and `uncurry`.
//!
//! The source's result is kept until the time is taken.

use super::answer::Source;
use super::reader;
use crate::bench::{self, Slices, Way};
use crate::call::{Answer, Call, Refusal};
use crate::ffi::LINKED;
use crate::model::Model;
use std::hint::black_box;
use std::time::{Duration, Instant};
use upstream::sexp::Parser;

/// The source's way.
struct Upstream;

impl Way for Upstream {
    const NAME: &'static str = "sexp.rs, parser.rs, uncurry";

    /// With the same words, but for texts that are excepted.
    fn accepts(&self, call: &Call, answer: &Result<Answer, Refusal>) -> bool {
        let source = Source::new(call.op, call.text);
        assert!(source.excepted() || source.answer(call) == *answer, "no difference");
        true
    }

    fn time(&self, text: &str, _: Slices) -> Duration {
        let began = Instant::now();
        let sexp = Parser::new(black_box(text)).parse().expect("accepted");
        let solution = black_box(reader::open(0).parse_solution(&sexp));
        let time = began.elapsed();
        drop((solution, sexp));
        time
    }
}

/// Made solutions, and those in these files.
pub fn run(paths: &[&str]) -> Result<(), String> {
    bench::run(&LINKED, &Upstream, paths)
}
