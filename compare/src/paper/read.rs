//! The text reader: a text to its expressions as trees.

use super::number;
use super::refusal::*;
use crate::call::Refusal;

pub const MAX_BYTES: usize = 32_768;
pub const MAX_LISTS: usize = 64;

/// A name or string of the text, and the byte at which it starts.
#[derive(Clone, Copy, Debug)]
pub struct Name<'t> {
    pub start: usize,
    pub text: &'t str,
}

#[derive(Debug)]
pub enum Tree<'t> {
    Symbol(Name<'t>),
    Quoted(Name<'t>),
    Integer(i128),
    Decimal(Name<'t>),
    Boolean(bool),
    List(Vec<Tree<'t>>),
}

/// The first expression, and the byte after it.
pub fn one(text: &[u8]) -> Result<(Tree<'_>, usize), Refusal> {
    let mut cursor = Cursor::new(text)?;
    let tree = cursor.expression(0)?;
    Ok((tree, cursor.at))
}

/// All expressions.
pub fn all(text: &[u8]) -> Result<Vec<Tree<'_>>, Refusal> {
    let mut cursor = Cursor::new(text)?;
    let mut trees = Vec::new();
    while cursor.next_char().is_some() {
        trees.push(cursor.expression(0)?);
    }
    Ok(trees)
}

struct Cursor<'t> {
    text: &'t str,
    at: usize,
}

/// White space is Unicode's, and so is Rust's.
fn ends_atom(c: char) -> bool {
    c.is_whitespace() || matches!(c, '(' | ')' | '"')
}

impl<'t> Cursor<'t> {
    /// The whole text is judged before any of it is read.
    fn new(text: &'t [u8]) -> Result<Self, Refusal> {
        if text.len() > MAX_BYTES {
            return Err(TOO_LONG);
        }
        let text = std::str::from_utf8(text).map_err(|_| NOT_UTF8)?;
        Ok(Cursor { text, at: 0 })
    }

    fn rest(&self) -> &'t str {
        &self.text[self.at..]
    }

    /// The next character that is no white space.
    fn next_char(&mut self) -> Option<char> {
        self.at = self.text.len() - self.rest().trim_start().len();
        self.rest().chars().next()
    }

    fn take(&mut self, len: usize) -> Name<'t> {
        let name = Name { start: self.at, text: &self.rest()[..len] };
        self.at += len;
        name
    }

    /// One expression inside `open` lists.
    fn expression(&mut self, open: usize) -> Result<Tree<'t>, Refusal> {
        match self.next_char().ok_or(ENDS_EARLY)? {
            '(' if open == MAX_LISTS => Err(TOO_DEEP),
            '(' => self.list(open + 1),
            // A list takes its own `)`, so this one stands at top level.
            ')' => Err(CLOSES_NOTHING),
            '"' => {
                self.at += 1;
                let len = self.rest().find('"').ok_or(UNCLOSED)?;
                let string = self.take(len);
                self.at += 1;
                Ok(Tree::Quoted(string))
            }
            '@' => {
                let last = self.rest().find(')').ok_or(UNCLOSED)?;
                Ok(Tree::Symbol(self.take(last + 1)))
            }
            _ => {
                let len = self.rest().find(ends_atom).unwrap_or(self.rest().len());
                Ok(atom(self.take(len)))
            }
        }
    }

    fn list(&mut self, open: usize) -> Result<Tree<'t>, Refusal> {
        self.at += 1;
        let mut items = Vec::new();
        while self.next_char().ok_or(ENDS_EARLY)? != ')' {
            items.push(self.expression(open)?);
        }
        self.at += 1;
        Ok(Tree::List(items))
    }
}

fn atom(name: Name<'_>) -> Tree<'_> {
    match name.text {
        "true" => Tree::Boolean(true),
        "false" => Tree::Boolean(false),
        text => match number::integer(text) {
            Some(i) => Tree::Integer(i),
            None if number::is_decimal(text) => Tree::Decimal(name),
            None => Tree::Symbol(name),
        },
    }
}
