//! The limits of the operations, and how many words or bytes an answer can need.

/// A text may have so many bytes; a longer one is refused.
pub const MAX_BYTES: usize = 32_768;

/// So many lists of a text may stand inside one another.
pub const MAX_LISTS: usize = 64;

/// So many expressions may stand inside one another in words that are flattened or decoded.
pub const MAX_EXPRESSIONS: usize = 128;

/// Slices of so many words for each byte of the text are long enough for a tree: the tree slice, and the output of
/// [`Reader::read_one`](crate::Reader::read_one) and [`Reader::read_all`](crate::Reader::read_all). With this length and
/// [`ANSWER_WORDS`] no text is refused with [`Refusal::NoRoom`](crate::Refusal::NoRoom), which is proved.
pub const TREE_WORDS: usize = 5;

/// Slices of so many words for each byte of the text are long enough for a draft, and for the output where it is a
/// sort, an expression, a bind or a solution, which is proved as for [`TREE_WORDS`].
///
/// ```
/// use pinhkray::{Reader, ANSWER_WORDS, TREE_WORDS};
///
/// let text = b"(lambda ((x Int)) (< x 5))";
/// let mut tree = vec![0; TREE_WORDS * text.len()];
/// let mut draft = vec![0; ANSWER_WORDS * text.len()];
/// let mut out = vec![0; ANSWER_WORDS * text.len()];
/// let written = Reader::open(0).solution(text, &mut tree, &mut draft, &mut out)?;
/// assert_eq!(out[..written.words], [1, 0, 0, 1, 47, 4, 36, 0, 0, 32, 5, 0, 0, 0]);
/// # Ok::<(), pinhkray::Refusal>(())
/// ```
pub const ANSWER_WORDS: usize = 15;

/// A slice of so many bytes for each word, and as many again as the text has, is long enough for
/// [`smtlib`](crate::smtlib) of a solution that was read from this text. Unlike the others this is tested, and not
/// proved.
///
/// ```
/// use pinhkray::{smtlib, Reader, TERM_BYTES};
///
/// let text = b"(lambda ((x Int)) (< x 5))";
/// let words = Reader::open(0).solution_owned(text)?.encode();
/// let mut out = vec![0; TERM_BYTES * words.len() + text.len()];
/// let bytes = smtlib(&words, text, &mut out)?;
/// assert_eq!(&out[..bytes], b"((|v 0| Int)) (< |v 0| 5)");
/// # Ok::<(), pinhkray::Refusal>(())
/// ```
pub const TERM_BYTES: usize = 12;
