//! Every operation over lent slices: what it reports, which words it writes, and what it leaves alone.

use pinhkray::{flatten, ReadAll, ReadOne, Reader, Refusal, Written};

/// A word that no call here writes.
const OLD: u32 = 0xdead_beef;

/// The words written at the start of a slice, whose others are still old.
fn written(out: &[u32], words: usize) -> &[u32] {
    assert!(
        out[words..].iter().all(|w| *w == OLD),
        "a later word was changed"
    );
    &out[..words]
}

#[test]
fn read_one() {
    let reader = Reader::open(7);
    let mut out = [OLD; 16];
    let read = reader.read_one(b"  (a) b", &mut out).unwrap();
    assert_eq!(
        read,
        ReadOne {
            words: 6,
            next_byte: 5
        }
    );
    assert_eq!(written(&out, 6), [21, 1, 3, 16, 3, 1]);
    assert_eq!(reader.count(), 7);
}

#[test]
fn read_all() {
    let reader = Reader::open(0);
    let mut out = [OLD; 16];
    let read = reader.read_all(b"+5 true", &mut out).unwrap();
    assert_eq!(
        read,
        ReadAll {
            expressions: 2,
            words: 7
        }
    );
    assert_eq!(written(&out, 7), [18, 5, 0, 0, 0, 20, 1]);
    let none = reader.read_all(b" ", &mut []).unwrap();
    assert_eq!(
        none,
        ReadAll {
            expressions: 0,
            words: 0
        }
    );
}

#[test]
fn sort() {
    let reader = Reader::open(0);
    let (mut tree, mut out) = ([OLD; 40], [OLD; 16]);
    let sort = reader.sort(b"(func 1 (Int) Bool)", &mut tree, &mut out);
    assert_eq!(sort, Ok(Written { words: 5 }));
    assert_eq!(written(&out, 5), [9, 0, 8, 1, 2]);
    assert_eq!(tree, [0; 40]);
    let mut out = [OLD; 16];
    assert_eq!(
        reader.sort(b"(Int)", &mut tree, &mut out),
        Ok(Written { words: 5 })
    );
    assert_eq!(written(&out, 5), [10, 2, 1, 3, 0]);
}

#[test]
fn expression() {
    let mut reader = Reader::open(3);
    let cases: [(&[u8], &[u32], u64); 5] = [
        (b"(and)", &[42, 0], 3),
        (b"(or (and) true)", &[43, 2, 37, 5, 3, 33, 1], 3),
        (b"(lit \"#b101\" (BitVec Size3))", &[35, 5, 0, 0, 0, 3], 3),
        (b"(exists ((x Int)) x)", &[51, 1, 3, 0, 1, 36, 3, 0], 4),
        (
            b"(((as apply Int) f))",
            &[38, 0, 0, 38, 1, 0, 1, 37, 17, 1],
            4,
        ),
    ];
    for (text, words, count) in cases {
        let (mut tree, mut out) = ([OLD; 64], [OLD; 16]);
        let expression = reader.expression(text, &mut tree, &mut out).unwrap();
        assert_eq!(written(&out, expression.words), words);
        assert_eq!(tree, [0; 64]);
        assert_eq!(reader.count(), count);
    }
}

#[test]
fn bind() {
    let mut reader = Reader::open(0);
    let (mut tree, mut out) = ([OLD; 64], [OLD; 32]);
    let bind = reader.bind(b"((x Int) (and ($k x y) (not x)))", &mut tree, &mut out);
    let words = [
        2, 1, 1, 2, 64, 15, 2, 2, 37, 18, 1, 37, 20, 1, 65, 44, 37, 28, 1,
    ];
    assert_eq!(bind, Ok(Written { words: words.len() }));
    assert_eq!(written(&out, words.len()), words);
    assert_eq!(tree, [0; 64]);
}

#[test]
fn solution() {
    let mut reader = Reader::open(0);
    let (mut tree, mut draft, mut out) = ([OLD; 64], [OLD; 32], [OLD; 32]);
    let text = b"(lambda () (((as apply Int) f) a))";
    let solution = reader.solution(text, &mut tree, &mut draft, &mut out);
    let words = [0, 38, 0, 1, 37, 31, 1, 37, 28, 1];
    assert_eq!(solution, Ok(Written { words: words.len() }));
    assert_eq!(written(&out, words.len()), words);
    assert_eq!((tree, draft), ([0; 64], [0; 32]));
}

#[test]
fn flattening() {
    // ((f a) b) is f over a and b; the outer application's sort stays.
    let curried = [38, 1, 1, 37, 6, 1, 2, 38, 0, 1, 37, 3, 1, 37, 1, 1];
    let flat = [38, 1, 2, 37, 3, 1, 37, 6, 1, 2, 37, 1, 1];
    let mut out = [OLD; 16];
    assert_eq!(
        flatten(&curried, &mut out),
        Ok(Written { words: flat.len() })
    );
    assert_eq!(written(&out, flat.len()), flat);
    let mut short = [OLD; 12];
    assert_eq!(flatten(&curried, &mut short), Err(Refusal::NoRoom));
    assert_eq!(short, [0; 12]);
}

#[test]
fn slices_of_no_length() {
    let mut reader = Reader::default();
    assert_eq!(reader.read_one(b"", &mut []), Err(Refusal::EndsEarly));
    assert_eq!(reader.read_one(b"a", &mut []), Err(Refusal::NoRoom));
    assert_eq!(reader.sort(b"Int", &mut [], &mut []), Err(Refusal::NoRoom));
    assert_eq!(
        reader.expression(b"a", &mut [], &mut []),
        Err(Refusal::NoRoom)
    );
    assert_eq!(reader.bind(b"a", &mut [], &mut []), Err(Refusal::NoRoom));
    assert_eq!(
        reader.solution(b"a", &mut [], &mut [], &mut []),
        Err(Refusal::NoRoom)
    );
    assert_eq!(flatten(&[], &mut []), Err(Refusal::BadWords));
}
