//! Words taken apart from the first to the last.

use std::error::Error;
use std::fmt;

/// A name or a string: where it stands in the text that was read.
#[derive(Clone, Copy, Debug, PartialEq, Eq, Hash, PartialOrd, Ord)]
pub struct Span {
    /// The first byte.
    pub start: u32,
    /// How many bytes there are.
    pub len: u32,
}

impl Span {
    /// The name itself, out of its text. None if the text has no such part.
    pub fn of(self, text: &[u8]) -> Option<&str> {
        let start = usize::try_from(self.start).ok()?;
        let end = start.checked_add(usize::try_from(self.len).ok()?)?;
        std::str::from_utf8(text.get(start..end)?).ok()
    }
}

/// Why words are not those of the term that was asked for.
#[derive(Clone, Copy, Debug, PartialEq, Eq)]
pub enum DecodeError {
    /// The words end before the term does.
    EndsEarly,
    /// The word at this place is no kind, code or count that may stand there.
    Unexpected(usize),
    /// Lists or expressions nest too deep; the first one too many begins at this place.
    TooDeep(usize),
    /// The term has ended, and words are left over from this place on.
    LeftOver(usize),
}

impl fmt::Display for DecodeError {
    fn fmt(&self, f: &mut fmt::Formatter<'_>) -> fmt::Result {
        match self {
            DecodeError::EndsEarly => f.write_str("the words end early"),
            DecodeError::Unexpected(at) => write!(f, "word {at} may not stand there"),
            DecodeError::TooDeep(at) => write!(f, "what begins at word {at} nests too deep"),
            DecodeError::LeftOver(at) => write!(f, "words are left over from word {at} on"),
        }
    }
}

impl Error for DecodeError {}

pub(crate) type Decoded<T> = Result<T, DecodeError>;

/// Words, and the place of the next one.
pub(crate) struct Words<'w> {
    words: &'w [u32],
    at: usize,
}

impl<'w> Words<'w> {
    /// One term that takes all the words.
    pub fn whole<T>(words: &'w [u32], term: fn(&mut Self) -> Decoded<T>) -> Decoded<T> {
        let mut words = Words { words, at: 0 };
        let term = term(&mut words)?;
        match words.is_empty() {
            true => Ok(term),
            false => Err(DecodeError::LeftOver(words.at)),
        }
    }

    pub fn is_empty(&self) -> bool {
        self.at == self.words.len()
    }

    /// The place of the next word.
    pub fn at(&self) -> usize {
        self.at
    }

    pub fn word(&mut self) -> Decoded<u32> {
        let word = *self.words.get(self.at).ok_or(DecodeError::EndsEarly)?;
        self.at += 1;
        Ok(word)
    }

    /// The word that was just taken may not stand there.
    pub fn unexpected<T>(&self) -> Decoded<T> {
        Err(DecodeError::Unexpected(self.at - 1))
    }

    /// A word that is a code of something.
    pub fn code<T>(&mut self, from_number: fn(u32) -> Option<T>) -> Decoded<T> {
        match from_number(self.word()?) {
            Some(code) => Ok(code),
            None => self.unexpected(),
        }
    }

    pub fn boolean(&mut self) -> Decoded<bool> {
        self.code(|word| match word {
            0 => Some(false),
            1 => Some(true),
            _ => None,
        })
    }

    pub fn span(&mut self) -> Decoded<Span> {
        let start = self.word()?;
        let len = self.word()?;
        Ok(Span { start, len })
    }

    /// Two words, low then high.
    pub fn long(&mut self) -> Decoded<u64> {
        let low = self.word()?;
        let high = self.word()?;
        Ok(u64::from(low) | u64::from(high) << 32)
    }

    /// Four words, lowest first.
    pub fn wide(&mut self) -> Decoded<u128> {
        let low = self.long()?;
        let high = self.long()?;
        Ok(u128::from(low) | u128::from(high) << 64)
    }

    /// A count, and so many terms. Room is made term by term, since a count may be larger than the words that are left.
    pub fn counted<T>(&mut self, mut term: impl FnMut(&mut Self) -> Decoded<T>) -> Decoded<Vec<T>> {
        let count = self.word()?;
        let mut terms = Vec::new();
        for _ in 0..count {
            terms.push(term(self)?);
        }
        Ok(terms)
    }
}
