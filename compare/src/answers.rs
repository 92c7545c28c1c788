//! Recorded answers, a case a line: `OP START TREE DRAFT OUT INPUT = REFUSAL A B COUNT WORDS`.

use crate::call::{Answer, Call, Operation, Refusal};

pub struct Case {
    pub line: usize,
    pub op: Operation,
    text: Vec<u8>,
    tree: usize,
    draft: usize,
    out: usize,
    start: u64,
    pub answer: Result<Answer, Refusal>,
}

impl Case {
    pub fn call(&self) -> Call<'_> {
        Call { op: self.op, text: &self.text, tree: self.tree, draft: self.draft, out: self.out, count: self.start }
    }
}

/// Flattening takes words and no reader.
pub struct Flattening {
    pub line: usize,
    pub words: Vec<u32>,
    pub out: usize,
    pub answer: Result<Answer, Refusal>,
}

/// Parts joined by a sign, each perhaps `*N`: this part N times.
fn parts(text: &str, joined: char) -> impl Iterator<Item = (&str, usize)> {
    text.split(joined).map(|p| match p.split_once('*') {
        Some((part, n)) => (part, n.parse().expect("a count behind *")),
        None => (p, 1),
    })
}

pub fn bytes(text: &str) -> Vec<u8> {
    if text == "-" {
        return Vec::new();
    }
    let byte = |h: &str| u8::from_str_radix(h, 16).expect("two hexadecimal digits");
    let part = |p: &str| (0..p.len() / 2).map(|i| byte(&p[2 * i..2 * i + 2])).collect::<Vec<_>>();
    parts(text, '.').flat_map(|(p, n)| part(p).repeat(n)).collect()
}

/// Numbers joined by `,`, each perhaps `*N`: N times; `(A,B)*N` is A and B, N times.
pub fn words(text: &str) -> Vec<u32> {
    let number = |n: &str| u32::from_str_radix(n, 16).expect("a hexadecimal number");
    let mut rest = if text == "-" { "" } else { text };
    let mut all = Vec::new();
    while !rest.is_empty() {
        let (part, behind) = match rest.strip_prefix('(') {
            Some(group) => group.split_once(')').expect("a group that ends"),
            None => rest.split_at(rest.find([',', '*']).unwrap_or(rest.len())),
        };
        let (times, behind) = behind.split_at(behind.find(',').unwrap_or(behind.len()));
        let times = times.strip_prefix('*').map_or(1, |n| n.parse().expect("a count behind *"));
        all.extend(part.split(',').map(number).collect::<Vec<_>>().repeat(times));
        rest = behind.strip_prefix(',').unwrap_or("");
    }
    all
}

fn operation(op: &str) -> Operation {
    match op {
        "R" => Operation::ReadOne,
        "A" => Operation::ReadAll,
        "S" => Operation::Sort,
        "E" => Operation::Expression,
        "B" => Operation::Bind,
        "L" => Operation::Solution,
        _ => panic!("an operation, and not {op}"),
    }
}

fn number(field: &str) -> u64 {
    field.parse().expect("a number")
}

fn answer(f: &[&str]) -> Result<Answer, Refusal> {
    let number = |i: usize| number(f[i]);
    match number(7) {
        0 => Ok(Answer { a: number(8), b: number(9), count: number(10), words: words(f[11]) }),
        refusal => {
            assert_eq!((number(8), number(9), f[10], f[11]), (0, 0, f[1], "-"), "a recorded refusal reports nothing");
            Err(refusal as Refusal)
        }
    }
}

/// The cases that begin with a text, and those that flatten words.
pub fn read(text: &str) -> (Vec<Case>, Vec<Flattening>) {
    let (mut cases, mut flattenings) = (Vec::new(), Vec::new());
    for (i, text) in text.lines().enumerate() {
        let (line, f) = (i + 1, text.split(' ').collect::<Vec<_>>());
        let len = |i: usize| number(f[i]) as usize;
        if f[0] == "F" {
            flattenings.push(Flattening { line, words: words(f[5]), out: len(4), answer: answer(&f) });
        } else {
            let (op, start) = (operation(f[0]), number(f[1]));
            cases.push(Case { line, op, text: bytes(f[5]), tree: len(2), draft: len(3), out: len(4), start, answer: answer(&f) });
        }
    }
    (cases, flattenings)
}
