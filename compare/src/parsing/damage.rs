//! Good texts damaged: bytes dropped, swapped, replaced, put in or cut off, and whole tokens likewise.

use crate::random::Random;

const BYTES: &[u8] = &[
    b'(', b')', b'"', b'@', b' ', b'-', b'+', b'.', b'0', b'1', b'x', b'$', b'#', 0xc2, 0x85, 0xa0, 0xe2, 0x80, 0xff, 0x00, 0xed, 0xf4, 0x90,
];
const TOKENS: &[&str] = &[
    "(", ")", "()", "and", "or", "not", "exists", "let", "lit", "as", "apply", "func", "is$", "$k", "x", "1", "1.5", "inf", "65", "Size2", "Size3", "\"#b11\"", "\"#b101\"",
    "BitVec", "Int", "true",
];

pub fn damaged(text: Vec<u8>, r: &mut Random) -> Vec<u8> {
    let times = 1 + r.below(3);
    (0..times).fold(text, |t, _| if r.one_in(2) { bytes(t, r) } else { tokens(&t, r) })
}

/// A place in the text; where it has a literal, sometimes that of its first digit.
fn place(t: &[u8], r: &mut Random) -> usize {
    match t.windows(2).position(|two| two == b"#b") {
        Some(literal) if r.one_in(4) => literal + 2,
        _ => r.below(t.len() + 1),
    }
}

fn bytes(mut t: Vec<u8>, r: &mut Random) -> Vec<u8> {
    let at = place(&t, r);
    match r.below(8) {
        0 => t.truncate(at),
        1 | 2 => t.insert(at, r.pick(BYTES)),
        _ if at == t.len() => {}
        3 | 4 => t[at] = r.pick(BYTES),
        5 => {
            let other = r.below(t.len());
            t.swap(at, other);
        }
        _ => {
            t.remove(at);
        }
    }
    t
}

/// Runs of bytes between spaces and parentheses; a parenthesis alone is one, so is a space.
fn split(t: &[u8]) -> Vec<&[u8]> {
    t.chunk_by(|a, b| !matches!(a, b'(' | b')' | b' ') && !matches!(b, b'(' | b')' | b' ')).collect()
}

fn tokens(t: &[u8], r: &mut Random) -> Vec<u8> {
    let mut parts = split(t);
    let at = r.below(parts.len() + 1);
    match r.below(8) {
        0 | 1 => parts.insert(at, r.pick(TOKENS).as_bytes()),
        _ if at == parts.len() => {}
        2 | 3 => parts[at] = r.pick(TOKENS).as_bytes(),
        4 => {
            let other = r.below(parts.len());
            parts.swap(at, other);
        }
        5 => parts.insert(at, parts[at]),
        _ => {
            parts.remove(at);
        }
    }
    parts.concat()
}
