//! Words that are those of no term: where each is told.

use pinhkray::DecodeError::{self, *};
use pinhkray::{Bind, Expr, Solution, Sort, Tree, MAX_EXPRESSIONS, MAX_LISTS};

#[test]
fn trees() {
    let none: [(&[u32], DecodeError); 9] = [
        (&[], EndsEarly),
        (&[16, 0], EndsEarly),
        (&[21, u32::MAX, 0], EndsEarly),
        (&[15], Unexpected(0)),
        (&[22], Unexpected(0)),
        (&[20, 2], Unexpected(1)),
        (&[21, 1, 2, 16, 0, 1], Unexpected(2)),
        (&[21, 1, 3, 1], Unexpected(3)),
        (&[16, 0, 1, 16, 0, 1], LeftOver(3)),
    ];
    for (words, error) in none {
        assert_eq!(Tree::decode(words), Err(error));
    }
    assert_eq!(Tree::decode_all(&[]), Ok(vec![]));
    assert_eq!(Tree::decode_all(&[20, 1, 20]), Err(EndsEarly));
    // Lists inside one another, each with the words of those inside it.
    let nested = |lists: u32| {
        let list = |i: u32| [21, u32::from(i > 0), 3 * i];
        (0..lists).rev().flat_map(list).collect::<Vec<_>>()
    };
    assert!(Tree::decode(&nested(MAX_LISTS as u32)).is_ok());
    let deep = Tree::decode(&nested(MAX_LISTS as u32 + 1));
    assert_eq!(deep, Err(TooDeep(3 * MAX_LISTS)));
}

#[test]
fn sorts() {
    let none: [(&[u32], DecodeError); 9] = [
        (&[], EndsEarly),
        (&[0], Unexpected(0)),
        (&[11], Unexpected(0)),
        (&[5], EndsEarly),
        (&[7, 0], EndsEarly),
        (&[8, 1], EndsEarly),
        (&[10, 3, 0], Unexpected(1)),
        (&[10, 0, u32::MAX, 1], EndsEarly),
        (&[8, 1, 2, 3], LeftOver(3)),
    ];
    for (words, error) in none {
        assert_eq!(Sort::decode(words), Err(error));
    }
}

#[test]
fn expressions() {
    let none: [(&[u32], DecodeError); 18] = [
        (&[], EndsEarly),
        (&[31], Unexpected(0)),
        (&[53], Unexpected(0)),
        (&[64, 0, 0, 0], Unexpected(0)),
        (&[32, 1, 2, 3], EndsEarly),
        (&[33, 2], Unexpected(1)),
        (&[38, 2], Unexpected(1)),
        (&[38, 1, 0, 37, 0, 1], Unexpected(3)),
        (&[40, 5], Unexpected(1)),
        (&[42, u32::MAX, 33, 1], EndsEarly),
        (&[47, 6], Unexpected(1)),
        (&[49, 42], Unexpected(1)),
        (&[51, 1, 0, 0, 32], Unexpected(4)),
        (&[49, 41, 0], LeftOver(2)),
        (&[52, 0], EndsEarly),
        (&[52, 0, 0, 33, 1], EndsEarly),
        (&[52, 0, 0, 1], Unexpected(3)),
        (&[52, 0, 0, 33, 1, 33, 1, 33], LeftOver(7)),
    ];
    for (words, error) in none {
        assert_eq!(Expr::decode(words), Err(error));
    }
    let chain = |last: &[u32]| [vec![44; MAX_EXPRESSIONS], last.to_vec()].concat();
    assert_eq!(Expr::decode(&chain(&[33])), Err(TooDeep(MAX_EXPRESSIONS)));
    assert_eq!(
        Expr::decode(&chain(&[31])),
        Err(Unexpected(MAX_EXPRESSIONS))
    );
    assert_eq!(Expr::decode(&chain(&[])), Err(EndsEarly));
}

#[test]
fn binds_and_solutions() {
    let bind: [(&[u32], DecodeError); 5] = [
        (&[0, 1, 1], EndsEarly),
        (&[0, 1, 1, 1, 63], Unexpected(4)),
        (&[0, 1, 1, 1, 64, 0, 1, 1, 36, 0, 0], Unexpected(8)),
        (&[0, 1, 1, 1, 65, 1], Unexpected(5)),
        (&[0, 1, 1, 0, 0], LeftOver(4)),
    ];
    for (words, error) in bind {
        assert_eq!(Bind::decode(words), Err(error));
    }
    assert_eq!(Solution::decode(&[u32::MAX, 0, 0, 1]), Err(EndsEarly));
    assert_eq!(Solution::decode(&[0]), Err(EndsEarly));
    assert_eq!(Solution::decode(&[0, 33, 1, 7]), Err(LeftOver(3)));
}

#[test]
fn sentences() {
    let error: Box<dyn std::error::Error> = Box::new(Unexpected(3));
    assert_eq!(error.to_string(), "word 3 may not stand there");
    assert_eq!(EndsEarly.to_string(), "the words end early");
    assert_eq!(
        TooDeep(8).to_string(),
        "what begins at word 8 nests too deep"
    );
    assert_eq!(
        LeftOver(2).to_string(),
        "words are left over from word 2 on"
    );
}
