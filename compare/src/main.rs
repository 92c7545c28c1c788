//! Holds the proved library against documents 01 and 02, against the source and against another archive of it, by running.
//!
//!     compare gate ANSWERS TERMS .. the recorded answers of documents 01 and 02, the small stack, and some hundred thousand calls;
//!                                   a name that is empty stands for no file
//!     compare long SEED MILLIONS    so many million random calls for parsing, flattening and sessions together, behind all small texts
//!     compare smtlib SEED MILLIONS  so many million random calls for solutions as SMT-LIB terms, behind all small ones
//!     compare write                 for each line of standard input, words and a text, what the library writes
//!     compare script                what `solsmt` should print for standard input
//!     compare nested BYTES SEED     a solution of nested lists, of so many bytes, 200 or more
//!     compare bench-flatten         the time of flattening
//!     compare bench-smtlib          the time of writing solutions as SMT-LIB terms, beside that of reading them
//!     compare beside SHARED SEED MILLIONS [WORD ..]  so many million random calls of all functions against another archive, of which SHARED
//!                                   is a shared object, behind all small texts; texts that contain one of the words are passed over, and
//!                                   words in which an expression of the kind 52 is met where one of the words is `kind:52`
//!     compare bench-beside SHARED SHARED [TEXT ..]  the time of solution by the first against that by the second, of made texts and of these;
//!                                   and that of read one, of solutions of nested lists and of these
//!     compare reading SEED MILLIONS so many million for read one and read all against sexp.rs, behind all short texts
//!     compare source SEED MILLIONS  so many million for all operations against parser.rs and constraint.rs, behind all small texts
//!     compare bench [TEXT ..]       read one against sexp.rs and limit.c on a solution of nested lists and on these: times, and instructions by
//!                                   valgrind
//!     compare once READER FROM      one reading by `read one`, `sexp.rs` or `limit.c`, for its instructions to be counted: of a file, or of a
//!                                   solution of nested lists of so many bytes
//!     compare bench-solution [TEXT ..]  the time of solution against sexp.rs, parser.rs and constraint.rs, of made texts and of these
//!
//! The last five need the source when the program is built.

mod answers;
mod bench;
mod beside;
mod call;
mod check;
mod extreme;
mod ffi;
mod flattening;
mod lengths;
mod letters;
mod many_names;
mod model;
mod nested;
mod paper;
mod parsing;
mod random;
#[cfg(flux_source)]
mod reading;
mod recorded;
mod sessions;
mod shared;
mod smtlib;
mod solutions;
#[cfg(flux_source)]
mod source;
mod stack;
mod tally;
mod timing;

use ffi::Archive;
use paper::Paper;
use parsing::Small;
use random::Random;
use shared::Shared;
use std::io::Read;

/// How far a run goes.
struct Size {
    small: Small,
    /// Words of a small list to flatten.
    words: usize,
    /// Random calls, all operations together.
    random: u64,
}

const GATE: Size = Size { small: Small { alone: 5, framed: 4, row: 3 }, words: 5, random: 400_000 };
const LONG: Small = Small { alone: 6, framed: 5, row: 5 };
/// The gate's run against the source.
#[cfg(flux_source)]
const SOURCE: Size = Size { small: Small { alone: 4, framed: 3, row: 2 }, words: 4, random: 80_000 };

fn gate(answers: Option<&str>, terms: &[&str]) -> Result<(), String> {
    match answers {
        Some(path) => {
            let all = recorded::run(path)?;
            println!("compare: {all} recorded answers: the paper gives them all, and so does the library");
        }
        None => println!("compare: recorded answers skipped, for want of them"),
    }
    match terms.iter().map(|path| smtlib::recorded(path)).sum::<Result<usize, String>>()? {
        0 => println!("compare: recorded answers of C-11 skipped, for want of them"),
        all => println!("compare: {all} recorded answers of C-11: the paper gives them all, and so does the library"),
    }
    let (calls, accepted) = stack::run()?;
    println!("compare: {calls} calls on the deepest and longest texts and words, {accepted} accepted, in a stack of {} KiB: no difference", stack::BYTES / 1024);
    against_paper(&GATE, &mut Random::new(1))?;
    terms_held(4, 200_000, &mut Random::new(1))?;
    against_source(answers)
}

/// How a let of a number begins; its binding and its body are behind it.
const LET: [u32; 3] = [52, 7, 0];

fn against_paper(size: &Size, r: &mut Random) -> Result<(), String> {
    let parsed = parsing::run::<Paper>("the paper", size.small, size.random / 2, r)?;
    let flattened = flattening::run("the paper", paper::flatten, &[&[], &LET], size.words, size.random / 4, r)?;
    let sessions = sessions::run(size.random / 4, r)?;
    let extremes = parsing::extremes_held::<Paper>("the paper", r)? + flattening::extremes_held("the paper", paper::flatten, r)?;
    let all = parsed + flattened + sessions + extremes;
    println!("compare: the paper, these together: {all}: no difference");
    all.meets(&[1, 2, 3, 4, 5, 6, 7, 8, 9, 10, 11, 12, 13, 14, 17])
}

/// Solutions as SMT-LIB terms: all of up to so many nodes, and in so many random calls.
fn terms_held(nodes: usize, random: u64, r: &mut Random) -> Result<(), String> {
    let all = smtlib::run(nodes, random, r)?;
    println!("compare: the paper, Smtlib, these together: {all}: no difference");
    all.meets(&[6, 7, 14, 15, 16])
}

/// Another archive, that a shared object was made of.
fn other(path: &str) -> Result<Archive, String> {
    Archive::of(&Shared::load(path)?)
}

fn against_other(other: &Archive, words: &[&str], random: u64, r: &mut Random) -> Result<(), String> {
    let all = beside::run(other, words, GATE.small, random, r)?;
    println!("compare: the other archive, these together: {all}: no difference");
    all.meets(&[])
}

#[cfg(flux_source)]
fn against_source(answers: Option<&str>) -> Result<(), String> {
    let mut r = Random::new(1);
    let recorded = answers.map_or(Ok(0), reading::recorded)?;
    let (short, random) = (reading::every(4, &mut r)?, reading::random(200_000, &mut r)?);
    println!("compare: sexp.rs: {recorded} recorded answers, {short} calls on all short texts, {random} on random ones: no difference");
    if let Some(path) = answers {
        let (given, excepted) = source::recorded(path)?;
        println!("compare: parser.rs and constraint.rs: {given} recorded answers: they give them all; {excepted} with literals or lets excepted");
    }
    source_held(&SOURCE, &mut r)?;
    reading::bench::bounded()
}

#[cfg(flux_source)]
fn source_held(size: &Size, r: &mut Random) -> Result<(), String> {
    let all = source::run(size.small, size.words, size.random, r)?;
    println!("compare: parser.rs and constraint.rs, these together: {all}: no difference");
    // 11 and 17 are of literals, which are excepted.
    all.meets(&[1, 2, 3, 4, 5, 6, 7, 8, 9, 10, 12, 13, 14])
}

#[cfg(not(flux_source))]
fn against_source(_: Option<&str>) -> Result<(), String> {
    println!("compare: sexp.rs, parser.rs and constraint.rs skipped, for want of the source");
    Ok(())
}

#[cfg(flux_source)]
fn reading_long(seed: &str, millions: &str) -> Result<(), String> {
    let mut r = Random::new(number(seed)?);
    let (short, random) = (reading::every(6, &mut r)?, reading::random(number(millions)? * 1_000_000, &mut r)?);
    println!("compare: sexp.rs: {short} calls on all texts of up to 6 pieces, {random} on random ones: no difference");
    Ok(())
}

fn number(text: &str) -> Result<u64, String> {
    text.parse().map_err(|_| format!("a number, and not {text}"))
}

fn run(words: &[&str]) -> Result<(), String> {
    match words {
        ["gate", answers, terms @ ..] => {
            let named = |path: &&str| !path.is_empty();
            gate(Some(*answers).filter(named), &terms.iter().copied().filter(named).collect::<Vec<_>>())
        }
        ["long", seed, millions] => {
            let size = Size { small: LONG, words: 6, random: number(millions)? * 1_000_000 };
            against_paper(&size, &mut Random::new(number(seed)?))
        }
        ["smtlib", seed, millions] => terms_held(5, number(millions)? * 1_000_000, &mut Random::new(number(seed)?)),
        ["write"] => smtlib::write(),
        ["script"] => {
            let mut text = Vec::new();
            std::io::stdin().read_to_end(&mut text).map_err(|e| e.to_string())?;
            print!("{}", paper::script(&text));
            Ok(())
        }
        ["nested", bytes, seed] => match number(bytes)? as usize {
            bytes if bytes < nested::LEAST => Err(format!("{} bytes or more, and not {bytes}", nested::LEAST)),
            bytes => {
                print!("{}", nested::solution(bytes, number(seed)?));
                Ok(())
            }
        },
        ["bench-flatten"] => {
            flattening::bench::run();
            Ok(())
        }
        ["bench-smtlib"] => {
            smtlib::bench::run();
            Ok(())
        }
        ["beside", path, seed, millions, words @ ..] => {
            against_other(&other(path)?, words, number(millions)? * 1_000_000, &mut Random::new(number(seed)?))
        }
        ["bench-beside", ours, path, paths @ ..] => {
            let (ours, other) = (other(ours)?, other(path)?);
            bench::run(&ours, &other, paths)?;
            beside::bench::read_one(&ours, &other, paths)
        }
        #[cfg(flux_source)]
        ["reading", seed, millions] => reading_long(seed, millions),
        #[cfg(flux_source)]
        ["source", seed, millions] => {
            let size = Size { small: GATE.small, words: 5, random: number(millions)? * 1_000_000 };
            source_held(&size, &mut Random::new(number(seed)?))
        }
        #[cfg(flux_source)]
        ["bench-solution", paths @ ..] => source::bench::run(paths),
        #[cfg(flux_source)]
        ["bench", paths @ ..] => reading::bench::run(paths),
        #[cfg(flux_source)]
        ["once", reader, from] => reading::bench::once(reader, from),
        #[cfg(not(flux_source))]
        ["reading" | "source" | "bench" | "once" | "bench-solution", ..] => Err("built without the source; FLUX_SOURCE names its folder".to_string()),
        _ => Err("compare gate ANSWERS TERMS .. | long SEED MILLIONS | smtlib SEED MILLIONS | write | script | reading SEED MILLIONS | source SEED MILLIONS | bench [TEXT ..] | once READER FROM | bench-solution [TEXT ..] | nested BYTES SEED | bench-flatten | bench-smtlib | beside SHARED SEED MILLIONS [WORD ..] | bench-beside SHARED SHARED [TEXT ..]".to_string()),
    }
}

fn main() {
    let args: Vec<String> = std::env::args().skip(1).collect();
    let words: Vec<&str> = args.iter().map(String::as_str).collect();
    if let Err(message) = run(&words) {
        println!("compare: {message}");
        std::process::exit(1);
    }
}
