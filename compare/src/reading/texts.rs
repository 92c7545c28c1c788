//! Texts to read: grown from the grammar, damaged, and built around each limit.

use crate::letters;
use crate::paper::{MAX_BYTES, MAX_LISTS};
use crate::random::Random;

const SPACES: &[&str] = &[" ", "\n", "\t", "\u{b}", "\u{c}", "\r", "  ", "\u{85}", "\u{a0}", "\u{1680}", "\u{2003}", "\u{2028}", "\u{2029}", "\u{202f}", "\u{205f}", "\u{3000}"];

const ATOMS: &[&str] = &[
    "a", "x", "foo", "and", "lambda", "true", "false", "True", "truee", "-", "+", "--5", "+-5", "1_0", "é", "λx", "\u{200b}", "\u{feff}", "\u{180e}", "٣", "a@", "0x1", "e5", ".", ".e5", "1e", "1e+", "1e5.", "1.2.3",
    "5.", ".5", "+.5e-3", "1E5", "1e5", "inf", "iNf", "-inf", "+Infinity", "infinity", "infinit", "infinityx", "nan", "-NaN", "NaNx", "0", "-0", "+0", "00", "7", "-7", "+7", "123456789", "4294967295", "4294967296", "18446744073709551615", "18446744073709551616", "-9223372036854775808",
    "170141183460469231731687303715884105727", "170141183460469231731687303715884105728", "-170141183460469231731687303715884105728", "-170141183460469231731687303715884105729", "340282366920938463463374607431768211455", "340282366920938463463374607431768211456",
    "000000000000000000000000000000000000000000000000000000000000000000012", "99999999999999999999999999999999999999999999999999", "1e999999999999999999999",
    "\"\"", "\"b c\"", "\"(\"", "\"é)\"", "@)", "@(0)", "@ \"( )", "@a)", "|a b|", "lq_karg$x##0", "\u{10ffff}", "𝒳",
];

fn space(r: &mut Random, s: &mut String) {
    if r.one_in(6) {
        s.push_str(r.pick(SPACES));
    } else {
        s.push(' ');
    }
}

fn digits(r: &mut Random, s: &mut String) {
    if r.one_in(3) {
        s.push(r.pick(&['-', '+']));
    }
    let most = if r.one_in(4) { 45 } else { 12 };
    for _ in 0..1 + r.below(most) {
        s.push((b'0' + r.below(10) as u8) as char);
    }
    if r.one_in(5) {
        s.push(r.pick(&['.', 'e', 'E', '-', 'x']));
        for _ in 0..r.below(4) {
            s.push(r.pick(&['0', '1', '9', '.', 'e', '+', '-']));
        }
    }
}

fn expression(r: &mut Random, s: &mut String, depth: usize, size: &mut usize) {
    if depth == 0 || *size == 0 || r.one_in(3) {
        if r.one_in(4) {
            digits(r, s);
        } else if r.one_in(12) {
            s.push_str(&letters::spelled(r));
        } else {
            s.push_str(r.pick(ATOMS));
        }
        return;
    }
    s.push('(');
    for i in 0..r.below(5) {
        *size = size.saturating_sub(1);
        if i > 0 && !r.one_in(12) {
            space(r, s);
        }
        expression(r, s, depth - 1, size);
    }
    s.push(')');
}

/// One or a few expressions.
pub fn grown(r: &mut Random) -> Vec<u8> {
    let mut s = String::new();
    if r.one_in(4) {
        space(r, &mut s);
    }
    let (mut size, depth) = (1 + r.below(60), 1 + r.below(8));
    for _ in 0..1 + r.below(3) {
        expression(r, &mut s, depth, &mut size);
        if !r.one_in(4) {
            space(r, &mut s);
        }
    }
    s.into_bytes()
}

/// A good text with a few bytes changed, put in, taken out or cut off.
pub fn damaged(r: &mut Random) -> Vec<u8> {
    let mut t = grown(r);
    for _ in 0..1 + r.below(4) {
        let at = r.below(t.len() + 1);
        let byte = r.pick(&[b'(', b')', b'"', b'@', b' ', b'-', b'.', b'0', 0xc2, 0x85, 0xa0, 0xe2, 0x80, 0xff, 0x00, 0xed, 0xf4, 0x90]);
        match r.below(4) {
            0 => t.truncate(at),
            1 => t.insert(at, byte),
            2 if at < t.len() => t[at] = byte,
            _ if at < t.len() => {
                t.remove(at);
            }
            _ => {}
        }
    }
    t
}

/// Lists inside one another, around the limit, with things between them.
pub fn nested(r: &mut Random) -> Vec<u8> {
    let n = MAX_LISTS - 2 + r.below(5);
    let mut s = String::new();
    for _ in 0..r.below(3) {
        s.push_str(r.pick(&["a ", "()", "\"(\" ", ") ", "@(( ) ", "1(2)3 "]));
    }
    for _ in 0..n {
        s.push('(');
        if r.one_in(5) {
            s.push_str(r.pick(&["a ", "\"(((\"", "@((()", "()", "1", " "]));
        }
    }
    let closes = if r.one_in(3) { r.below(n + 3) } else { n };
    for _ in 0..closes {
        s.push(')');
        if r.one_in(9) {
            s.push_str(r.pick(&["a", " ", "()", "\"\"", "7"]));
        }
    }
    s.into_bytes()
}

/// Texts as long as a text may be, and a few bytes more or less.
pub fn long(r: &mut Random) -> Vec<u8> {
    let len = MAX_BYTES - 3 + r.below(7);
    let part: &[&str] = r.pick(&[&["a "][..], &["(1)1"], &["1(1)"], &[" "], &["\u{3000}"], &["x"], &["0"], &["(", ")"], &["\"a\""], &["-5 1e5 nan "], &["é"]]);
    let mut t = Vec::new();
    while t.len() < len {
        let p = r.pick(part).as_bytes();
        t.extend_from_slice(&p[..p.len().min(len - t.len())]);
    }
    if r.one_in(2) {
        t[0] = b'(';
        let last = t.len() - 1;
        t[last] = b')';
    }
    t
}

/// Every text of exactly `len` pieces of an alphabet that has every token's start.
pub struct Every {
    alphabet: Vec<&'static [u8]>,
    places: Vec<usize>,
    done: bool,
}

pub const ALPHABET: &[&[u8]] = &[b"(", b")", b"\"", b"@", b" ", b"a", b"-", b"1", b".", b"e", "\u{a0}".as_bytes(), b"\xff"];

impl Every {
    pub fn new(len: usize) -> Self {
        Every { alphabet: ALPHABET.to_vec(), places: vec![0; len], done: false }
    }
}

impl Iterator for Every {
    type Item = Vec<u8>;

    fn next(&mut self) -> Option<Vec<u8>> {
        if self.done {
            return None;
        }
        let text = self.places.iter().flat_map(|&i| self.alphabet[i].iter().copied()).collect();
        self.done = !self.places.iter_mut().any(|i| {
            *i = (*i + 1) % self.alphabet.len();
            *i != 0
        });
        Some(text)
    }
}
