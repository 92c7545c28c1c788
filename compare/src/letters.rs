//! `inf`, `infinity` and `nan`, which are names since request C-14, in all their spellings: a sign or none, and any case.

use crate::random::Random;

const WORDS: [&str; 3] = ["inf", "infinity", "nan"];
const SIGNS: [&str; 3] = ["", "-", "+"];

/// The word with those letters as capitals whose bits are set.
fn capitals(word: &str, bits: usize) -> String {
    word.char_indices().map(|(i, c)| if bits >> i & 1 == 1 { c.to_ascii_uppercase() } else { c }).collect()
}

/// One of them; mostly without a sign and in small letters, so that a name meets its binder.
pub fn spelled(r: &mut Random) -> String {
    let word = r.pick(&WORDS);
    let sign = if r.one_in(3) { r.pick(&SIGNS) } else { "" };
    let bits = if r.one_in(3) { r.below(1 << word.len()) } else { 0 };
    sign.to_string() + &capitals(word, bits)
}

/// Every spelling of the short ones; of the long one those with one capital, with capitals only, and without any.
pub fn all() -> Vec<String> {
    let every = |word: &'static str| (0..1 << word.len()).map(move |bits| capitals(word, bits));
    let few = [0, 1, 2, 4, 8, 16, 32, 64, 128, 255].map(|bits| capitals("infinity", bits));
    let words: Vec<String> = every("inf").chain(every("nan")).chain(few).collect();
    SIGNS.iter().flat_map(|sign| words.iter().map(move |word| sign.to_string() + word)).collect()
}
