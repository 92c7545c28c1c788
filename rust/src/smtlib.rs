//! Solutions as SMT-LIB terms.

use crate::limits::TERM_BYTES;
use crate::refusal::Refusal;
use crate::solution::Solution;
use crate::sys;

/// Writes the words of one [`Solution`] for a reader of SMT-LIB 2.6: its list of sorted variables, a space and one term.
/// The text is the one that the solution was read from. Answers how many bytes were written, from the start of the
/// output; later bytes stay as they were. After a refusal the whole output is zero.
///
/// # Panics
///
/// If the linked archive is of another version, and its answer none that this crate knows.
pub fn smtlib(words: &[u32], text: &[u8], out: &mut [u8]) -> Result<usize, Refusal> {
    sys::smtlib(words, text, out).map(|bytes| bytes as usize)
}

impl Solution {
    /// The solution for a reader of SMT-LIB 2.6: its list of sorted variables, a space and one term. The text is the one
    /// that it was read from. [`Refusal::NoRoom`] is never answered.
    ///
    /// ```
    /// use pinhkray::Reader;
    ///
    /// let text = b"(lambda ((x Int)) (< x y))";
    /// let solution = Reader::open(0).solution_owned(text)?;
    /// assert_eq!(solution.smtlib(text)?, "((|v 0| Int)) (< |v 0| |n y|)");
    /// # Ok::<(), pinhkray::Refusal>(())
    /// ```
    ///
    /// # Panics
    ///
    /// As [`Solution::encode`]; and if the linked archive is of another version, and its answer none that this crate
    /// knows.
    pub fn smtlib(&self, text: &[u8]) -> Result<String, Refusal> {
        let words = self.encode();
        let mut out = vec![0; TERM_BYTES * words.len() + text.len()];
        loop {
            match smtlib(&words, text, &mut out) {
                // Names that share bytes of the text may need more, in a solution that was made by hand.
                Err(Refusal::NoRoom) => out = vec![0; 2 * out.len()],
                answer => {
                    out.truncate(answer?);
                    return Ok(String::from_utf8(out).expect("ASCII"));
                }
            }
        }
    }
}
