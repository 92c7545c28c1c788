//! Texts of bit vectors.

use super::grower::Grower;
use super::pools::*;

/// How many digits a literal has, round the ends of words and of what a value can need.
const WIDTHS: &[usize] = &[1, 1, 2, 3, 8, 31, 32, 33, 63, 64, 65, 96, 127, 128, 129, 130, 300];

impl Grower<'_> {
    pub fn lit(&mut self) {
        self.open("lit");
        self.gap();
        let start = self.text.len();
        if self.fault() {
            self.pick(&["\"#x1\"", "#b11", "\"b11\"", "\"\"", "\"#\"", "5", "x", "(\"#b11\")", "\"#B11\"", "\" #b11\""]);
        } else {
            self.put("\"#b");
            self.digits();
            self.put("\"");
        }
        let digits = self.text.len().saturating_sub(start + "\"#b\"".len());
        self.gap();
        if self.fault() {
            self.pick(&["", "Size3", "(BitVec)", "(Size3)", "(BitVec 3)", "(BitVec Size3 Size3)", "((BitVec Size3))", "(BitVec (Size3))", "()"]);
        } else {
            self.put("(");
            self.pick(&["BitVec", "BitVec", "BitVec", "BitVec", "5", "x", "()", "1.5", "\"\"", "Set_Set"]);
            self.gap();
            self.width(digits);
            self.put(")");
        }
        self.surplus();
        self.close();
    }

    /// Digits of any number, with zeros before them: a value below 2^128, or past the limits one of 2^128 and more, or no digits.
    fn digits(&mut self) {
        if self.fault() {
            return;
        }
        if self.past_limits() {
            return self.pick(BAD_DIGITS);
        }
        if self.r.one_in(4) {
            return self.pick(DIGITS);
        }
        let all = if self.r.one_in(3) { 1 + self.r.below(140) } else { self.r.pick(WIDTHS) };
        let zeros = if self.r.one_in(3) { self.r.below(all + 1) } else { 0 };
        let zeros = if self.past_limits() { zeros } else { zeros.max(all.saturating_sub(128)) };
        let ones = self.r.one_in(3);
        (0..zeros).for_each(|_| self.put("0"));
        (zeros..all).for_each(|at| if ones || at == zeros { self.put("1") } else { self.pick(&["0", "1"]) });
    }

    /// A size that says how many digits there are, in any spelling; past the limits one more, one fewer, another one, or none.
    fn width(&mut self, digits: usize) {
        let said = match self.r.below(6) {
            _ if !self.past_limits() => digits,
            0 => return self.pick(SIZES),
            1 => return self.pick(BAD_SIZES),
            2 => digits + (1 << 32),
            3 => digits.saturating_sub(1),
            _ => digits + 1,
        };
        self.put("Size");
        if self.r.one_in(4) {
            self.pick(&["+", "0", "+0", "00000000000000000000", "+00000000000"]);
        }
        self.put(&said.to_string());
    }
}
