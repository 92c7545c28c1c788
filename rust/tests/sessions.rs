//! One reader over many calls: its count is the number of binders and lets in accepted answers, plus the number it
//! was opened at.

use pinhkray::{Expr, Fresh, Reader, Refusal};

#[test]
fn counts_go_on() {
    let mut reader = Reader::open(5);
    let first = reader
        .solution_owned(b"(lambda ((x Int) (y Int)) (exists ((z Int)) z))")
        .unwrap();
    assert_eq!(first.params[1].0, Fresh(6));
    assert!(matches!(&first.body, Expr::Exists(bound, _) if bound[0].0 == Fresh(7)));
    assert_eq!(reader.count(), 8);
    let refused = reader.solution_owned(b"(lambda ((y Int)) (g y))");
    assert_eq!(refused, Err(Refusal::Malformed));
    assert_eq!(reader.count(), 8);
    // The refused call left no name behind.
    let named = reader.solution_owned(b"(lambda () y)").unwrap();
    assert!(matches!(named.body, Expr::Var(_)));
    reader
        .bind_owned(b"((x Int) (exists ((y Int)) y))")
        .unwrap();
    assert_eq!(reader.count(), 9);
    reader
        .expression_owned(b"(and (exists ((y Int)) y) (exists ((y Int)) y))")
        .unwrap();
    assert_eq!(reader.count(), 11);
    reader.sort_owned(b"Int").unwrap();
    reader.read_all_owned(b"(exists ((y Int)) y)").unwrap();
    assert_eq!(reader.count(), 11);
}

#[test]
fn another_goes_on_where_one_left_off() {
    let text = b"(lambda ((x Int)) x)";
    let mut one = Reader::open(0);
    one.solution_owned(text).unwrap();
    let mut other = Reader::open(one.count());
    assert_eq!(one, other);
    assert_eq!(one.solution_owned(text), other.solution_owned(text));
    assert_eq!(one, other);
}

#[test]
fn the_last_numbers() {
    let text = b"(lambda ((x Int)) x)";
    let mut reader = Reader::open(u64::MAX - 1);
    let last = reader.solution_owned(text).unwrap();
    assert_eq!(last.params[0].0, Fresh(u64::MAX - 1));
    assert_eq!(last.body, Expr::Fresh(Fresh(u64::MAX - 1)));
    assert_eq!(reader.count(), u64::MAX);
    assert_eq!(reader.solution_owned(text), Err(Refusal::NumbersSpent));
    assert!(reader.solution_owned(b"(lambda () x)").is_ok());
}

/// The same text at two counts is the same term, its fresh numbers raised.
#[test]
fn readers_of_several_threads() {
    let text = b"(lambda ((x Int)) (exists ((y Int)) (= x y)))";
    std::thread::scope(|scope| {
        for count in [0, 7, 1 << 40] {
            scope.spawn(move || {
                let shown = Reader::open(count)
                    .solution_owned(text)
                    .unwrap()
                    .to_string();
                let (x, y) = (count, count + 1);
                assert_eq!(
                    shown,
                    format!("(lambda ((%{x} Int)) (exists ((%{y} Int)) (= %{x} %{y})))")
                );
            });
        }
    });
}
