//! The recorded answers again, over lent slices and as owned terms.

#[path = "support/recorded.rs"]
mod recorded;

use pinhkray::{
    flatten, flatten_owned, Bind, DecodeError, Expr, Reader, Refusal, Solution, Sort, Tree,
};
use recorded::{lines, Line};
use std::collections::BTreeSet;

/// A word that no answer leaves where it does not write.
const OLD: u32 = 0xdead_beef;

/// The two numbers reported, the second 0 where there is none.
type Reported = Result<(usize, usize), Refusal>;

/// Makes the call of a line on a reader.
fn call(line: &Line, reader: &mut Reader, slices: &mut [Vec<u32>; 3]) -> Reported {
    let text = &line.text[..];
    let [tree, draft, out] = slices;
    match line.op {
        'R' => reader.read_one(text, out).map(|r| (r.words, r.next_byte)),
        'A' => reader.read_all(text, out).map(|r| (r.expressions, r.words)),
        'S' => reader.sort(text, tree, out).map(|r| (r.words, 0)),
        'E' => reader.expression(text, tree, out).map(|r| (r.words, 0)),
        'B' => reader.bind(text, tree, out).map(|r| (r.words, 0)),
        'L' => reader
            .solution(text, tree, draft, out)
            .map(|r| (r.words, 0)),
        _ => flatten(&line.words_in, out).map(|r| (r.words, 0)),
    }
}

fn recorded_answer(line: &Line) -> Reported {
    match Refusal::from_number(line.refusal) {
        None => Ok((line.a, line.b)),
        Some(refusal) => Err(refusal),
    }
}

/// Whether all words are zero, or as they were.
fn all(words: &[u32], word: u32) -> bool {
    words.iter().all(|w| *w == word)
}

#[test]
fn answers_over_slices() {
    let mut reader = Reader::open(0);
    let mut kept = 0;
    for (n, line) in lines().iter().enumerate() {
        // Where a line starts at the count that the last call left, it goes on with the same reader.
        match reader.count() == line.start {
            true => kept += 1,
            false => reader = Reader::open(line.start),
        }
        let mut slices = [line.tree, line.draft, line.out].map(|len| vec![OLD; len]);
        let said = call(line, &mut reader, &mut slices);
        assert_eq!(said, recorded_answer(line), "line {}", n + 1);
        assert_eq!(reader.count(), line.count, "line {}", n + 1);
        let [tree, draft, out] = &slices;
        if said.is_ok() {
            let (words, later) = out.split_at(line.words.len());
            assert!(words == line.words && all(later, OLD), "line {}", n + 1);
        } else {
            assert!(all(out, 0), "line {}", n + 1);
        }
        let tree_lent = matches!(line.op, 'S' | 'E' | 'B' | 'L');
        assert!(!tree_lent || all(tree, 0), "line {}", n + 1);
        assert!(line.op != 'L' || all(draft, 0), "line {}", n + 1);
    }
    assert!(kept > 1000);
}

/// A term's words, and the number that is reported besides, 0 where there is none.
fn owned(line: &Line, reader: &mut Reader) -> Result<(Vec<u32>, usize), Refusal> {
    let text = &line.text[..];
    let words = match line.op {
        'R' => {
            let (tree, next) = reader.read_one_owned(text)?;
            return Ok((tree.encode(), next));
        }
        'A' => {
            let trees = reader.read_all_owned(text)?;
            return Ok((Tree::encode_all(&trees), trees.len()));
        }
        'S' => reader.sort_owned(text)?.encode(),
        'E' => reader.expression_owned(text)?.encode(),
        'B' => reader.bind_owned(text)?.encode(),
        'L' => reader.solution_owned(text)?.encode(),
        _ => flatten_owned(&line.words_in)?.encode(),
    };
    Ok((words, 0))
}

/// With slices of their own the same calls are answered with the same words, and none lacks room. Behind a recorded 7
/// any later refusal may stand.
#[test]
fn answers_as_terms() {
    for (n, line) in lines().iter().enumerate() {
        let mut reader = Reader::open(line.start);
        let said = owned(line, &mut reader);
        assert_ne!(said, Err(Refusal::NoRoom), "line {}", n + 1);
        if line.refusal != 7 {
            let besides = if line.op == 'A' { line.a } else { line.b };
            let recorded = recorded_answer(line).map(|_| (line.words.clone(), besides));
            assert_eq!(said, recorded, "line {}", n + 1);
            assert_eq!(reader.count(), line.count, "line {}", n + 1);
        }
    }
}

/// Takes words apart and puts them together again, which gives the same term when it is taken apart.
fn again<T: PartialEq + std::fmt::Debug>(
    words: &[u32],
    decode: fn(&[u32]) -> Result<T, DecodeError>,
    encode: fn(&T) -> Vec<u32>,
) -> Result<Vec<u32>, DecodeError> {
    let term = decode(words)?;
    let back = encode(&term);
    assert_eq!(decode(&back), Ok(term));
    Ok(back)
}

fn decoded(op: char, words: &[u32]) -> Result<Vec<u32>, DecodeError> {
    match op {
        'R' => again(words, Tree::decode, Tree::encode),
        'A' => again(words, Tree::decode_all, |trees| Tree::encode_all(trees)),
        'S' => again(words, Sort::decode, Sort::encode),
        'B' => again(words, Bind::decode, Bind::encode),
        'L' => again(words, Solution::decode, Solution::encode),
        _ => again(words, Expr::decode, Expr::encode),
    }
}

/// The words of every answer, there and back.
#[test]
fn answers_there_and_back() {
    let mut operations = BTreeSet::new();
    for (n, line) in lines().iter().enumerate() {
        if line.refusal == 0 {
            let back = decoded(line.op, &line.words);
            assert_eq!(back.as_ref(), Ok(&line.words), "line {}", n + 1);
            operations.insert(line.op);
        }
    }
    assert_eq!(
        operations,
        BTreeSet::from(['R', 'A', 'S', 'E', 'B', 'L', 'F'])
    );
}

/// Every expression that is read is flattened by its words, and flattened again stays as it is.
#[test]
fn expressions_that_were_read() {
    let mut joined = 0;
    for line in lines().iter().filter(|line| line.op == 'E') {
        if let Ok(read) = Reader::open(line.start).expression_owned(&line.text) {
            let flat = flatten_owned(&read.encode()).unwrap();
            assert_eq!(flatten_owned(&flat.encode()).as_ref(), Ok(&flat));
            joined += usize::from(flat != read);
        }
    }
    assert!(joined > 0);
}

/// Words with one word changed, or some missing, are refused or are those of the term that they are decoded as.
#[test]
fn damaged_words() {
    let (mut refused, mut kept) = (0, 0);
    for line in lines().iter().filter(|line| line.words.len() < 300) {
        for at in 0..line.words.len() {
            let mut cases = vec![line.words[..at].to_vec()];
            for word in [0, 1, 2, 5, 10, 21, 37, 38, 42, 51, 52, 65, u32::MAX] {
                let mut words = line.words.clone();
                words[at] = word;
                cases.push(words);
            }
            for words in cases {
                match decoded(line.op, &words) {
                    Ok(back) => {
                        assert_eq!(back, words);
                        kept += 1;
                    }
                    Err(_) => refused += 1,
                }
                agrees_with_flatten(&words);
            }
        }
    }
    assert!(refused > 10_000 && kept > 1_000);
}

/// Decoding an expression and flattening it judge words alike.
fn agrees_with_flatten(words: &[u32]) {
    let flat = flatten(words, &mut vec![0; words.len()]);
    match Expr::decode(words) {
        Ok(_) => assert!(flat.is_ok()),
        Err(DecodeError::TooDeep(_)) => assert_eq!(flat, Err(Refusal::TooDeep)),
        Err(_) => assert_eq!(flat, Err(Refusal::BadWords)),
    }
}

#[test]
fn words_to_flatten() {
    for line in lines().iter().filter(|line| line.op == 'F') {
        agrees_with_flatten(&line.words_in);
        if let Ok(back) = decoded('F', &line.words_in) {
            assert_eq!(back, line.words_in);
        }
    }
}
