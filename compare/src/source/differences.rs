//! What documents 01 and 02 answer otherwise than the source, one difference at a time; the numbers are rows of docs/DIFFERENCES.md.
//!
//! Rows 1, 2, 3 and 35 (texts too long, not UTF-8, nested too deep; `inf`, `infinity` and `nan`) are added where the reader is held against
//! `sexp.rs`. Row 15 (-2^127) needs nothing: the source is built so that it wraps.

use super::reader;
use crate::call::{Operation, Refusal, EXCEPTED};
use upstream::parser::ParseError;
use upstream::sexp::{Atom, Sexp};

/// No string of a text holds a quote.
fn mark() -> Sexp {
    Sexp::Atom(Atom::Q("\"".to_string()))
}

/// Rows 9 to 12: a number of `func` outside 0 to 64 is refused before the inputs are read. The inputs become something at which the source
/// panics when it reads them; as it does only where the list is read as a sort, and before anything else of it.
pub fn func_numbers(sexp: &mut Sexp) {
    let Sexp::List(items) = sexp else { return };
    if let [Sexp::Atom(Atom::S(head)), Sexp::Atom(Atom::I(number)), Sexp::List(inputs), _] = &mut items[..] {
        if head == "func" && !(0..=64).contains(number) {
            *inputs = vec![mark()];
        }
    }
    items.iter_mut().for_each(func_numbers);
}

/// Stands for a let's head behind `is$`, so that the hooks are asked for it when the let is read. No name of a text begins with a quote.
pub const LET: &str = "\"let";

/// Rows 19 to 21 and 36: the texts that are excepted, in which the source reads, as an expression, a `lit` with a string that begins with `#b`, or
/// a list that begins with `let`. It does if it panics at a `lit` whose digits are none, or asks the hooks for what stands for a let's head, as
/// it does at nothing else; whatever such a list is besides, a sort or a binder, it is with that head, too. Any other `lit`, and `(let)`, is
/// refused with 8 by both.
pub fn excepted(op: Operation, text: &[u8], sexp: &Sexp) -> bool {
    let mut marked = sexp.clone();
    mark_excepted(&mut marked) && matches!(reader::parse(op, text, &mut reader::open(0), &marked), Err(EXCEPTED))
}

/// Takes the digits from every literal, and gives every let another head; whether there is one of either.
fn mark_excepted(sexp: &mut Sexp) -> bool {
    let Sexp::List(items) = sexp else { return false };
    let found = match &mut items[..] {
        [Sexp::Atom(Atom::S(head)), Sexp::Atom(Atom::Q(digits)), ..] if head == "lit" && digits.starts_with("#b") => {
            *digits = "#b, and no digits".to_string();
            true
        }
        [Sexp::Atom(Atom::S(head)), _, ..] if head == "let" => {
            *head = format!("is${LET}");
            true
        }
        _ => false,
    };
    items.iter_mut().fold(found, |found, item| mark_excepted(item) || found)
}

/// Row 18: one number for all messages.
pub fn error(error: &ParseError) -> Refusal {
    match error {
        ParseError::MalformedSexpError(_) => 8,
        ParseError::SexpParseError(_) => panic!("parser.rs never makes SexpParseError"),
    }
}

/// A panic by its message; none if the message is not one of these.
pub fn panic(message: &str) -> Option<Refusal> {
    let rows: &[(&str, Refusal)] = &[
        // Row 13: an atom that is no sort.
        ("Unknown sort encountered ", 8),
        // Row 17: a missing item.
        ("index out of bounds: ", 8),
        // Row 16.
        ("not implemented: Float parsing not supported", 9),
        // Rows 23 and 24: a name that is gone from its scope.
        ("called `Option::unwrap()` on a `None` value", 10),
        // Rows 19 to 21: what stands for a literal's digits.
        ("Invalid binary string: ", EXCEPTED),
        // Row 36.
        (LET, EXCEPTED),
    ];
    if message == format!("Unknown sort encountered {:?}", mark()) {
        return Some(12);
    }
    rows.iter().find(|(start, _)| message.starts_with(start)).map(|(_, refusal)| *refusal)
}

/// Row 27: a fresh number is two words. How the count stands after a call that takes so many.
pub fn count_after(count: u64, numbers: u64) -> Result<u64, Refusal> {
    count.checked_add(numbers).ok_or(13)
}

/// Row 5: an answer is words in a lent slice.
pub fn fits(words: usize, slice: usize) -> Result<(), Refusal> {
    if words > slice {
        return Err(7);
    }
    Ok(())
}
