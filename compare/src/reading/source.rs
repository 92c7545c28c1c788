//! What `sexp.rs` answers, with the limits, refusals and words of document 01, and with the names of request C-14.

use crate::call::{Answer, Refusal};
use crate::paper::{MAX_BYTES, MAX_LISTS};
use upstream::sexp::{Atom, ParseError, Parser, Sexp};

fn refusal(error: &ParseError) -> Refusal {
    match error {
        ParseError::UnexpectedEOF => 3,
        ParseError::InvalidToken(_) => 4,
        ParseError::UnclosedString => 5,
        ParseError::InvalidNumber(_) => panic!("InvalidNumber is never made"),
    }
}

fn parse(all: bool, text: &str) -> Result<Vec<Sexp>, ParseError> {
    if all {
        Parser::new(text).parse_all()
    } else {
        Parser::new(text).parse().map(|e| vec![e])
    }
}

/// Where the first `(` stands that opens a list inside `MAX_LISTS` others. Strings and `@..)` hold no lists; `@` counts only where an
/// expression starts.
fn first_too_deep(text: &str) -> Option<usize> {
    let mut depth = 0usize;
    let mut chars = text.char_indices().peekable();
    while let Some((at, c)) = chars.next() {
        match c {
            '(' if depth == MAX_LISTS => return Some(at),
            '(' => depth += 1,
            ')' => depth = depth.saturating_sub(1),
            '"' => while chars.next().is_some_and(|(_, d)| d != '"') {},
            '@' => while chars.next().is_some_and(|(_, d)| d != ')') {},
            c if c.is_whitespace() => {}
            _ => while chars.next_if(|&(_, d)| !d.is_whitespace() && !matches!(d, '(' | ')' | '"')).is_some() {},
        }
    }
    None
}

/// Finds again where each expression stands: the source keeps no places.
struct Places<'a> {
    text: &'a str,
    at: usize,
    words: Vec<u32>,
}

impl Places<'_> {
    fn rest(&self) -> &str {
        &self.text[self.at..]
    }

    fn skip_space(&mut self) {
        self.at += self.rest().len() - self.rest().trim_start_matches(char::is_whitespace).len();
    }

    fn span(&mut self, kind: u32, start: usize, len: usize) {
        self.words.extend([kind, start as u32, len as u32]);
    }

    /// Whether the source has read a number that has no digit: `inf`, `infinity` or `nan`, which are symbols (row 35 of docs/DIFFERENCES.md).
    fn at_word(&self, len: usize) -> bool {
        !self.rest()[..len].contains(|c: char| c.is_ascii_digit())
    }

    fn expression(&mut self, e: &mut Sexp) {
        self.skip_space();
        match e {
            Sexp::List(items) => {
                assert!(self.rest().starts_with('('));
                self.at += 1;
                let header = self.words.len();
                self.words.extend([21, items.len() as u32, 0]);
                for item in items {
                    self.expression(item);
                }
                self.skip_space();
                assert!(self.rest().starts_with(')'));
                self.at += 1;
                self.words[header + 2] = (self.words.len() - header - 3) as u32;
            }
            Sexp::Atom(Atom::Q(s)) => {
                assert!(self.rest().starts_with('"') && self.rest()[1..].starts_with(s.as_str()));
                self.span(17, self.at + 1, s.len());
                self.at += s.len() + 2;
            }
            Sexp::Atom(Atom::S(s)) => {
                assert!(self.rest().starts_with(s.as_str()));
                self.span(16, self.at, s.len());
                self.at += s.len();
            }
            Sexp::Atom(atom) => {
                let len = self.rest().find(|c: char| c.is_whitespace() || matches!(c, '(' | ')' | '"')).unwrap_or(self.rest().len());
                match atom {
                    Atom::F(_) if self.at_word(len) => {
                        *atom = Atom::S(self.rest()[..len].to_string());
                        self.span(16, self.at, len);
                    }
                    Atom::I(i) => {
                        let bits = *i as u128;
                        self.words.push(18);
                        self.words.extend((0..4).map(|k| (bits >> (32 * k)) as u32));
                    }
                    Atom::F(_) => self.span(19, self.at, len),
                    Atom::B(b) => self.words.extend([20, *b as u32]),
                    Atom::S(_) | Atom::Q(_) => unreachable!(),
                }
                self.at += len;
            }
        }
    }
}

/// What read one or read all makes of a text, before it is known whether the output has room.
pub fn answer(all: bool, text: &[u8]) -> Result<Answer, Refusal> {
    if text.len() > MAX_BYTES {
        return Err(1);
    }
    let text = std::str::from_utf8(text).map_err(|_| 2u32)?;
    // A list too deep is met unless something else ends the reading before it.
    if let Some(at) = first_too_deep(text) {
        match parse(all, &text[..at]) {
            Err(ParseError::UnexpectedEOF) => return Err(6),
            Err(error) => return Err(refusal(&error)),
            Ok(found) if all => panic!("inside {MAX_LISTS} lists, yet read: {found:?}"),
            Ok(_) => {}
        }
    }
    let (found, places) = read(all, text).map_err(|error| refusal(&error))?;
    let (n, words) = (places.words.len() as u64, places.words);
    let (a, b) = if all { (found.len() as u64, n) } else { (n, places.at as u64) };
    Ok(Answer { a, b, count: 0, words })
}

/// The expressions of a text and their words.
fn read(all: bool, text: &str) -> Result<(Vec<Sexp>, Places<'_>), ParseError> {
    let mut found = parse(all, text)?;
    let mut places = Places { text, at: 0, words: Vec::new() };
    found.iter_mut().for_each(|e| places.expression(e));
    Ok((found, places))
}

/// The first expression of a text that is known to have one.
pub fn first(text: &[u8]) -> Sexp {
    let text = std::str::from_utf8(text).expect("it was read");
    read(false, text).expect("it was read").0.remove(0)
}
