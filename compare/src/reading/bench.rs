//! Read one against `sexp.rs`, and against the loop that limit.c has: times, and instructions, which do not depend on the machine's load.
//!
//! All on one computer in one run, each optimised, `sexp.rs` compiled alone. The output is just long enough and cleared beforehand, and the
//! source's result is kept until the time is taken. A time is the median of five turns, and behind it the least. Solutions of nested lists are
//! read ten in turn, forty times each in a turn of one reader; a text of a file is read 400 times. Instructions are those of one reading, of the
//! first of the solutions.

use super::counting::{self, instructions};
use super::figure::{figures, Figure};
use super::held;
use crate::bench::{READINGS, TURN};
use crate::call::{Call, Operation};
use crate::ffi::{Archive, BY_HAND, LINKED};
use crate::model::Model;
use crate::nested::{self, BYTES};
use crate::paper::Paper;
use crate::timing::micros;
use alone::sexp::{ParseError, Parser, Sexp};
use std::fs;
use std::hint::black_box;
use std::time::{Duration, Instant};

/// Solutions of nested lists by which time is seen to grow.
const SIZES: [usize; 4] = [512, 2048, BYTES, 32_768];
/// What a text may be full of.
const THINGS: [(&str, &str); 14] = [
    ("blanks", " "), ("white space of three bytes", "\u{2003}"), ("lists of nothing", "()"), ("names of one letter", "a "),
    ("names of 38 letters", "abcdefghijklmnopqrstuvwxyzabcdefghijkl "), ("names outside ASCII", "éλ𝒳 "), ("minus signs", "- "), ("numbers of one digit", "1 "),
    ("numbers of 18 digits", "123456789012345678 "), ("numbers of 38 digits", "12345678901234567890123456789012345678 "),
    ("integers that are too large", "999999999999999999999999999999999999999 "), ("decimals", "1e+1 "), ("strings of nothing", "\"\""), ("`@)`", "@)"),
];
/// The most instructions that the gate allows read one: of those of `sexp.rs`, and for a byte.
const MOST_OF_SOURCE: f64 = 0.5;
const MOST_A_BYTE: f64 = 35.0;

/// Who reads, and the function whose instructions are counted.
const READERS: [(&str, &str); 3] = [("read one", "pinhkray_read_one"), ("sexp.rs", "sexp_read_one"), ("limit.c", "limit_read_one")];

/// A text, and an output just long enough for it.
struct Case {
    text: String,
    out: Vec<u32>,
}

impl Case {
    fn new(text: String) -> Result<Self, String> {
        let words = Paper::new(Operation::ReadOne, text.as_bytes()).tree_words().map_err(|n| format!("a text is refused with {n}"))?;
        Ok(Case { text, out: vec![0; words] })
    }

    /// That all three read it with the same words.
    fn same(self) -> Result<Self, String> {
        let text = self.text.as_bytes();
        let call = Call { op: Operation::ReadOne, text, tree: 0, draft: 0, out: self.out.len(), count: 0 };
        held(&call, &super::source::answer(false, text))?;
        Ok(self)
    }

    /// That it is a solution.
    fn solution(self) -> Result<Self, String> {
        let text = self.text.as_bytes();
        match Paper::new(Operation::Solution, text).answer(&Call::roomy(Operation::Solution, text)) {
            Ok(_) => Ok(self),
            Err(n) => Err(format!("a text is refused with {n} as a solution")),
        }
    }

    fn read(&mut self, archive: &Archive) -> Duration {
        self.out.fill(0);
        let call = Call::roomy(Operation::ReadOne, black_box(self.text.as_bytes()));
        let began = Instant::now();
        black_box(archive.reply(&call, &mut [], &mut [], &mut self.out));
        began.elapsed()
    }

    /// One reading by a reader.
    fn once(&mut self, reader: usize) -> Duration {
        match reader {
            0 => self.read(&LINKED),
            1 => {
                let began = Instant::now();
                let read = black_box(sexp_read_one(black_box(&self.text)));
                let time = began.elapsed();
                drop(read);
                time
            }
            _ => self.read(&BY_HAND),
        }
    }
}

/// What is counted of the source.
#[no_mangle]
#[inline(never)]
fn sexp_read_one(text: &str) -> Result<Sexp, ParseError> {
    Parser::new(text).parse()
}

/// Texts of one kind that are read in turn.
struct Row {
    /// A file, or how many bytes made solutions have.
    from: String,
    cases: Vec<Case>,
}

impl Row {
    fn texts(from: &str) -> Result<Vec<String>, String> {
        match from.parse() {
            Ok(bytes) => Ok(nested::in_turn(bytes)),
            Err(_) => fs::read_to_string(from).map(|text| vec![text]).map_err(|e| format!("{from}: {e}")),
        }
    }

    fn new(from: &str) -> Result<Self, String> {
        let cases = Row::texts(from)?.into_iter().map(|text| Case::new(text)?.same()?.solution()).collect::<Result<_, String>>();
        Ok(Row { from: from.to_string(), cases: cases.map_err(|e| format!("{from}: {e}"))? })
    }

    fn name(&self) -> &str {
        match self.from.parse::<usize>() {
            Ok(_) => "a solution of nested lists",
            Err(_) => self.from.rsplit('/').next().unwrap_or(&self.from),
        }
    }

    fn bytes(&self) -> usize {
        self.cases[0].text.len()
    }

    fn figures<const N: usize>(&mut self) -> [Figure; N] {
        let rounds = if self.cases.len() > 1 { TURN } else { READINGS };
        figures(self.cases.len(), rounds, |reader, text| self.cases[text].once(reader))
    }

    fn instructions(&self, reader: usize) -> Result<u64, String> {
        let (name, function) = READERS[reader];
        instructions(function, &["once", name, &self.from])
    }
}

/// One reading of the first text, for its instructions to be counted.
pub fn once(reader: &str, from: &str) -> Result<(), String> {
    let reader = READERS.iter().position(|(name, _)| *name == reader).ok_or_else(|| format!("a reader, and not {reader}"))?;
    Case::new(Row::texts(from)?.swap_remove(0))?.once(reader);
    Ok(())
}

fn head(columns: &str) {
    println!("\n{columns}\n{}|", "|---".repeat(columns.matches('|').count() - 1));
}

fn of(ours: &Figure, other: &Figure) -> f64 {
    ours.median.as_secs_f64() / other.median.as_secs_f64()
}

fn times(rows: &mut [Row]) {
    head("| text | bytes | read one | sexp.rs | ratio | limit.c | ratio |");
    for row in rows {
        let [ours, source, hand] = row.figures();
        let (name, bytes) = (row.name(), row.bytes());
        println!("| {name} | {bytes} | {} | {} | {:.2} | {} | {:.2} |", ours.shown(), source.shown(), of(&ours, &source), hand.shown(), of(&ours, &hand));
    }
}

fn counts(rows: &[Row]) -> Result<(), String> {
    head("| text | instructions of read one | a byte | of sexp.rs | ratio | of limit.c | ratio |");
    for row in rows {
        let [ours, source, hand] = [row.instructions(0)?, row.instructions(1)?, row.instructions(2)?];
        let of = |other: u64| ours as f64 / other as f64;
        println!("| {} | {ours} | {:.1} | {source} | {:.2} | {hand} | {:.2} |", row.name(), of(row.bytes() as u64), of(source), of(hand));
    }
    Ok(())
}

fn growth(counted: bool) -> Result<(), String> {
    head("| a solution of nested lists, bytes | read one | a byte | instructions a byte | sexp.rs | ratio |");
    for size in SIZES {
        let mut row = Row::new(&size.to_string())?;
        let [ours, source] = row.figures();
        let each = |total: f64| total / size as f64;
        let instructions = if counted { format!("{:.1}", each(row.instructions(0)? as f64)) } else { "-".to_string() };
        let nanos = each(1e3 * micros(ours.median));
        println!("| {size} | {} | {nanos:.2} ns | {instructions} | {} | {:.2} |", ours.shown(), source.shown(), of(&ours, &source));
    }
    Ok(())
}

/// A list of one thing again and again, as long as that.
fn list_of(thing: &str, bytes: usize) -> String {
    let inside = thing.repeat((bytes - 2) / thing.len());
    let rest = " ".repeat(bytes - 2 - inside.len());
    format!("({inside}{rest})")
}

/// The time of read one on texts of one thing only, short and long.
fn things() -> Result<(), String> {
    head("| a list of nothing but | 8,192 bytes, a byte | 32,768 bytes, a byte |");
    for (name, thing) in THINGS {
        let a_byte = |bytes: usize| {
            let case = Case::new(list_of(thing, bytes))?.same()?;
            let [ours] = Row { from: name.to_string(), cases: vec![case] }.figures();
            Ok::<_, String>(1e3 * micros(ours.median) / bytes as f64)
        };
        println!("| {name} | {:.2} ns | {:.2} ns |", a_byte(8192)?, a_byte(32_768)?);
    }
    Ok(())
}

/// Solutions of nested lists, and those in these files.
pub fn run(paths: &[&str]) -> Result<(), String> {
    let made = BYTES.to_string();
    let mut rows = [&[&made[..]], paths].concat().into_iter().map(Row::new).collect::<Result<Vec<_>, _>>()?;
    let counted = counting::at_hand();
    times(&mut rows);
    if counted {
        counts(&rows)?;
    } else {
        println!("compare: instructions skipped, for want of valgrind");
    }
    growth(counted)?;
    things()
}

/// That read one takes no more instructions than it may, on a solution of nested lists.
pub fn bounded() -> Result<(), String> {
    if !counting::at_hand() {
        println!("compare: instructions skipped, for want of valgrind");
        return Ok(());
    }
    let row = Row::new(&BYTES.to_string())?;
    let [ours, source, hand] = [row.instructions(0)?, row.instructions(1)?, row.instructions(2)?].map(|n| n as f64);
    let (a_byte, of_source) = (ours / BYTES as f64, ours / source);
    println!(
        "compare: instructions of read one on {}, {BYTES} bytes: {a_byte:.1} a byte, at most {MOST_A_BYTE}; {of_source:.2} of those of sexp.rs, at most {MOST_OF_SOURCE}; {:.2} of those of limit.c",
        row.name(), ours / hand,
    );
    if a_byte > MOST_A_BYTE || of_source > MOST_OF_SOURCE {
        return Err("read one takes more instructions than it may".to_string());
    }
    Ok(())
}
