//! Recorded answers of C-11, a case a line: `WORDS TEXT ROOM = REFUSAL BYTES`. Lines that begin with `#` are notes.

use crate::answers::{bytes, words};
use crate::call::Refusal;

pub struct Case {
    pub line: usize,
    pub words: Vec<u32>,
    pub text: Vec<u8>,
    pub out: usize,
    pub answer: Result<String, Refusal>,
}

fn case(line: usize, text: &str) -> Case {
    let f: Vec<&str> = text.split(' ').collect();
    let [list, text, out, "=", refusal, written] = f[..] else { panic!("line {line}: a case of six fields") };
    let answer = match refusal.parse().expect("a number") {
        0 => Ok(String::from_utf8(bytes(written)).expect("ASCII")),
        refusal => {
            assert_eq!(written, "-", "a recorded refusal has no bytes");
            Err(refusal)
        }
    };
    Case { line, words: words(list), text: bytes(text), out: out.parse().expect("a number"), answer }
}

pub fn read(file: &str) -> Vec<Case> {
    let lines = file.lines().enumerate().filter(|(_, line)| !line.is_empty() && !line.starts_with('#'));
    lines.map(|(i, line)| case(i + 1, line)).collect()
}
