//! Words that may come from anywhere: judged as they are met, and taken apart.

use super::refusal::*;
use crate::call::Refusal;

/// An expression may begin inside fewer others than these.
pub const MAX_NODES: usize = 128;

/// An expression's words taken apart. A sort's words are one behind the other, so they stay a slice.
pub enum Node<'w> {
    /// Kind and fields, then children. The fields of an exists are the words of what it binds.
    Plain(&'w [u32], Vec<Node<'w>>),
    App(App<'w>),
}

pub struct App<'w> {
    pub arguments: Vec<Node<'w>>,
    pub sort: Option<&'w [u32]>,
    pub head: Box<Node<'w>>,
}

/// Reads the words once, from the first to the last.
pub struct Judge<'w> {
    words: &'w [u32],
    at: usize,
    /// How many bytes the text has that is lent with the words, if one is.
    text: Option<usize>,
    /// The kinds of expressions that were met, a bit for each.
    kinds: u64,
}

impl<'w> Judge<'w> {
    /// Of words that are lent alone, any span will do.
    pub fn alone(words: &'w [u32]) -> Self {
        Judge { words, at: 0, text: None, kinds: 0 }
    }

    /// Of words that are lent with a text, spans lie inside it.
    pub fn with_text(words: &'w [u32], text: &[u8]) -> Self {
        Judge { words, at: 0, text: Some(text.len()), kinds: 0 }
    }

    /// Whether an expression of this kind was met.
    pub fn met(&self, kind: u32) -> bool {
        self.kinds.checked_shr(kind).unwrap_or(0) & 1 == 1
    }

    /// No words are left over.
    pub fn end(&self) -> Result<(), Refusal> {
        if self.at < self.words.len() {
            return Err(NO_WORDS);
        }
        Ok(())
    }

    pub fn word(&mut self) -> Result<u32, Refusal> {
        let word = *self.words.get(self.at).ok_or(NO_WORDS)?;
        self.at += 1;
        Ok(word)
    }

    /// So many words of any value.
    pub fn skip(&mut self, n: usize) -> Result<(), Refusal> {
        (0..n).try_for_each(|_| self.word().map(|_| ()))
    }

    fn below(&mut self, limit: u32) -> Result<u32, Refusal> {
        Some(self.word()?).filter(|w| *w < limit).ok_or(NO_WORDS)
    }

    fn span(&mut self) -> Result<(), Refusal> {
        let (start, bytes) = (self.word()?, self.word()?);
        match self.text {
            Some(text) if u64::from(start) + u64::from(bytes) > text as u64 => Err(NO_WORDS),
            _ => Ok(()),
        }
    }

    /// One sort, however deep: so many more are wanted.
    pub fn sort(&mut self) -> Result<&'w [u32], Refusal> {
        let first = self.at;
        let mut wanted = 1u64;
        while wanted > 0 {
            wanted -= 1;
            match self.word()? {
                1..=4 => {}
                5 => wanted += 1,
                6 => self.skip(1)?,
                7 => self.skip(2)?,
                8 => wanted += 2,
                9 => {
                    self.skip(1)?;
                    wanted += 1;
                }
                10 => {
                    if self.below(3)? == 2 {
                        self.span()?;
                    }
                    wanted += u64::from(self.word()?);
                }
                _ => return Err(NO_WORDS),
            }
        }
        Ok(&self.words[first..self.at])
    }

    /// A count, and so many fresh numbers with their sorts.
    pub fn binders(&mut self) -> Result<&'w [u32], Refusal> {
        let first = self.at;
        for _ in 0..self.word()? {
            self.skip(2)?;
            self.sort()?;
        }
        Ok(&self.words[first..self.at])
    }

    /// An expression inside so many others.
    pub fn expr(&mut self, inside: usize) -> Result<Node<'w>, Refusal> {
        let first = self.at;
        let kind = Some(self.word()?).filter(|k| (32..=52).contains(k)).ok_or(NO_WORDS)?;
        self.kinds |= 1 << kind;
        if inside >= MAX_NODES {
            return Err(TOO_DEEP);
        }
        if kind == 38 {
            return self.app(inside);
        }
        let children = self.fields(kind)?;
        let head = &self.words[first..self.at];
        Ok(Node::Plain(head, self.exprs(children, inside)?))
    }

    /// The fields of a kind that is no application; how many children follow.
    fn fields(&mut self, kind: u32) -> Result<u32, Refusal> {
        match kind {
            32 => self.skip(4).map(|()| 0),
            33 => self.below(2).map(|_| 0),
            34 | 37 => self.span().map(|()| 0),
            35 => self.skip(5).map(|()| 0),
            36 => self.skip(2).map(|()| 0),
            40 => self.below(5).map(|_| 2),
            41 => Ok(3),
            42 | 43 => self.word(),
            45 | 46 => Ok(2),
            47 => self.below(6).map(|_| 2),
            48 => self.span().map(|()| 2),
            49 => self.below(42).map(|_| 0),
            50 => self.span().map(|()| 1),
            51 => self.binders().map(|_| 1),
            52 => self.skip(2).map(|()| 2),
            // 39 and 44.
            _ => Ok(1),
        }
    }

    fn exprs(&mut self, n: u32, inside: usize) -> Result<Vec<Node<'w>>, Refusal> {
        (0..n).map(|_| self.expr(inside + 1)).collect()
    }

    /// Arguments, then the sort if there is one, then the head.
    fn app(&mut self, inside: usize) -> Result<Node<'w>, Refusal> {
        let flag = self.below(2)?;
        let n = self.word()?;
        let arguments = self.exprs(n, inside)?;
        let sort = if flag == 1 { Some(self.sort()?) } else { None };
        Ok(Node::App(App { arguments, sort, head: Box::new(self.expr(inside + 1)?) }))
    }
}
