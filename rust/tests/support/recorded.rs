//! The recorded answers, a call and its answer a line: `OP START TREE DRAFT OUT INPUT = REFUSAL A B COUNT WORDS`.

/// A call and what was answered.
pub struct Line {
    /// R, A, S, E, B, L or F: read one, read all, sort, expression, bind, solution, flatten.
    pub op: char,
    /// The reader's count before the call.
    pub start: u64,
    /// Lengths of the slices.
    pub tree: usize,
    pub draft: usize,
    pub out: usize,
    /// The text.
    pub text: Vec<u8>,
    /// For flatten the words to flatten.
    pub words_in: Vec<u32>,
    /// 0 if accepted.
    pub refusal: u32,
    /// What is reported, and the count afterwards.
    pub a: usize,
    pub b: usize,
    pub count: u64,
    pub words: Vec<u32>,
}

/// All lines of the file that the program `replay` reads, too.
pub fn lines() -> Vec<Line> {
    let file = concat!(env!("CARGO_MANIFEST_DIR"), "/../crates/replay/stdin");
    let all = std::fs::read_to_string(file).expect("the recorded answers");
    all.lines().map(line).collect()
}

fn line(line: &str) -> Line {
    let fields: Vec<&str> = line.split(' ').collect();
    let [op, start, tree, draft, out, input, "=", refusal, a, b, count, words] = fields[..] else {
        panic!("a line of another form: {line}");
    };
    let op = op.chars().next().unwrap();
    let flatten = op == 'F';
    Line {
        op,
        start: start.parse().unwrap(),
        tree: tree.parse().unwrap(),
        draft: draft.parse().unwrap(),
        out: out.parse().unwrap(),
        text: if flatten { vec![] } else { bytes(input) },
        words_in: if flatten { numbers(input) } else { vec![] },
        refusal: refusal.parse().unwrap(),
        a: a.parse().unwrap(),
        b: b.parse().unwrap(),
        count: count.parse().unwrap(),
        words: numbers(words),
    }
}

/// What a part stands for, and how often.
fn times(part: &str) -> (&str, usize) {
    match part.split_once('*') {
        Some((part, times)) => (part, times.parse().unwrap()),
        None => (part, 1),
    }
}

/// Two hexadecimal digits a byte.
fn bytes(input: &str) -> Vec<u8> {
    let mut text = Vec::new();
    for part in input.split('.').filter(|part| *part != "-") {
        let (digits, n) = times(part);
        let byte = |i: usize| u8::from_str_radix(&digits[i..i + 2], 16).unwrap();
        let once: Vec<u8> = (0..digits.len()).step_by(2).map(byte).collect();
        text.extend(once.repeat(n));
    }
    text
}

/// Hexadecimal numbers.
fn numbers(input: &str) -> Vec<u32> {
    let mut words = Vec::new();
    for part in input.split(',').filter(|part| *part != "-") {
        let (digits, n) = times(part);
        words.extend(vec![u32::from_str_radix(digits, 16).unwrap(); n]);
    }
    words
}
