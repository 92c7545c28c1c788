//! A let binds: which number it takes, where its name is that number, and what it is in words and terms, each by its
//! smallest example.

use pinhkray::Refusal::{self, *};
use pinhkray::{flatten_owned, Expr, Reader, Solution, MAX_LISTS};

/// The words of an expression that a reader opened at 0 reads, and how many numbers it binds.
fn expression(text: &str) -> Result<(Vec<u32>, u64), Refusal> {
    let mut reader = Reader::open(0);
    let read = reader.expression_owned(text.as_bytes())?;
    Ok((read.encode(), reader.count()))
}

fn reads(cases: &[(&str, &[u32], u64)]) {
    for (text, words, count) in cases {
        assert_eq!(expression(text), Ok((words.to_vec(), *count)), "{text}");
    }
}

fn refuses(cases: &[(&str, Refusal)]) {
    for (text, refusal) in cases {
        assert_eq!(expression(text), Err(*refusal), "{text}");
    }
}

/// The words of a solution that a reader opened at 0 reads.
fn solution(text: &str) -> Vec<u32> {
    let read = Reader::open(0).solution_owned(text.as_bytes());
    read.unwrap().encode()
}

/// The binding's numbers are taken first, then the let's own, then the body's; its own is written first.
#[test]
fn order_of_the_numbers() {
    reads(&[
        (
            "(let (x (let (y 1) y)) x)",
            &[52, 1, 0, 52, 0, 0, 32, 1, 0, 0, 0, 36, 0, 0, 36, 1, 0],
            2,
        ),
        (
            "(let (x (exists ((a Int)) a)) (exists ((b Int)) x))",
            &[52, 1, 0, 51, 1, 0, 0, 1, 36, 0, 0, 51, 1, 2, 0, 1, 36, 1, 0],
            3,
        ),
    ]);
}

#[test]
fn the_name_is_bound_in_the_body_alone() {
    reads(&[
        ("(let (x x) x)", &[52, 0, 0, 37, 8, 1, 36, 0, 0], 1),
        (
            "(and (let (x 1) x) x)",
            &[42, 2, 52, 0, 0, 32, 1, 0, 0, 0, 36, 0, 0, 37, 19, 1],
            1,
        ),
        (
            "(let (x (let (y 1) y)) y)",
            &[52, 1, 0, 52, 0, 0, 32, 1, 0, 0, 0, 36, 0, 0, 37, 23, 1],
            2,
        ),
    ]);
    let own = solution("(lambda ((x Int)) (let (x x) x))");
    assert_eq!(own, [1, 0, 0, 1, 52, 1, 0, 36, 0, 0, 36, 1, 0]);
    let inner = solution("(lambda ((x Int)) (let (x 1) (< x 2)))");
    let words = [
        1, 0, 0, 1, 52, 1, 0, 32, 1, 0, 0, 0, 47, 4, 36, 1, 0, 32, 2, 0, 0, 0,
    ];
    assert_eq!(inner, words);
}

/// Theory names and keywords are what they are; a constructor's name is a span.
#[test]
fn names_that_a_let_does_not_bind() {
    reads(&[
        (
            "(let (bvadd 1) bvadd)",
            &[52, 0, 0, 32, 1, 0, 0, 0, 49, 27],
            1,
        ),
        (
            "(let (and 1) (not (and)))",
            &[52, 0, 0, 32, 1, 0, 0, 0, 44, 36, 0, 0],
            1,
        ),
        (
            "(let (x 1) (is$x x))",
            &[52, 0, 0, 32, 1, 0, 0, 0, 50, 15, 1, 36, 0, 0],
            1,
        ),
    ]);
}

#[test]
fn the_innermost_binds() {
    reads(&[
        (
            "(let (x 1) (let (x x) x))",
            &[52, 0, 0, 32, 1, 0, 0, 0, 52, 1, 0, 36, 0, 0, 36, 1, 0],
            2,
        ),
        (
            "(let (x 1) (exists ((x Int)) x))",
            &[52, 0, 0, 32, 1, 0, 0, 0, 51, 1, 1, 0, 1, 36, 1, 0],
            2,
        ),
        (
            "(exists ((x Int)) (let (x x) x))",
            &[51, 1, 0, 0, 1, 52, 1, 0, 36, 0, 0, 36, 1, 0],
            2,
        ),
    ]);
}

/// A let may repeat a name; an exists that repeats one is refused as before.
#[test]
fn repeated_names() {
    refuses(&[("(exists ((x Int) (x Int)) (let (x 1) x))", RepeatedName)]);
    reads(&[(
        "(exists ((x Int) (y Int)) (let (x y) (let (y x) x)))",
        &[
            51, 2, 0, 0, 1, 1, 0, 1, 52, 2, 0, 36, 1, 0, 52, 3, 0, 36, 2, 0, 36, 2, 0,
        ],
        4,
    )]);
}

#[test]
fn every_let_takes_a_number() {
    reads(&[("(let (x 1) true)", &[52, 0, 0, 32, 1, 0, 0, 0, 33, 1], 1)]);
    let text = b"(let (x 1) x)";
    let mut spent = Reader::open(u64::MAX);
    assert_eq!(spent.expression_owned(text), Err(NumbersSpent));
    let mut none = [1; 100];
    assert_eq!(
        spent.expression(text, &mut none, &mut []),
        Err(NumbersSpent)
    );
    assert_eq!(spent.expression_owned(b"(let (x 1) ())"), Err(Malformed));
    let mut last = Reader::open(u64::MAX - 1);
    let number = last.count();
    let read = last.expression_owned(text).unwrap();
    let shown = format!("(let (%{number} 1) %{number})");
    assert_eq!(read.to_string(), shown);
    assert_eq!(last.count(), u64::MAX);
}

#[test]
fn arguments_before_the_head() {
    reads(&[(
        "((let (f g) f) (let (a 1) a))",
        &[
            38, 0, 1, 52, 0, 0, 32, 1, 0, 0, 0, 36, 0, 0, 52, 1, 0, 37, 9, 1, 36, 1, 0,
        ],
        2,
    )]);
}

#[test]
fn missing_items() {
    refuses(&[
        ("(let (x 1.5))", Decimal),
        ("(let (x 1))", Malformed),
        ("(let (x) x)", Malformed),
        ("(let)", Malformed),
        ("(let () x)", Malformed),
        ("(let x 1)", Malformed),
        ("(let (1 x) x)", Malformed),
    ]);
    // The pair, the binding and the body are seen through.
    reads(&[(
        "(let (((x 1))) ((x)))",
        &[52, 0, 0, 32, 1, 0, 0, 0, 36, 0, 0],
        1,
    )]);
}

#[test]
fn binds() {
    let mut reader = Reader::open(0);
    let bind = reader.bind_owned(b"((x Int) (let (x 1) (= x 2)))").unwrap();
    let words = [
        2, 1, 1, 1, 65, 52, 0, 0, 32, 1, 0, 0, 0, 47, 0, 36, 0, 0, 32, 2, 0, 0, 0,
    ];
    assert_eq!(bind.encode(), words);
    assert_eq!(reader.count(), 1);
    let kvar = reader.bind_owned(b"((x Int) (let (x 1) ($k x)))");
    assert_eq!(kvar, Err(Malformed));
    assert_eq!(reader.count(), 1);
}

/// A let's pair is a list inside its own, so that there is room for one let less than for lists.
#[test]
fn nested_lets() {
    let nested = |lets: usize| {
        let open: String = (0..lets).map(|i| format!("(let (x{i} 1) ")).collect();
        open + "x0" + &")".repeat(lets)
    };
    let most = MAX_LISTS as u32 - 1;
    let mut words: Vec<u32> = (0..most).flat_map(|i| [52, i, 0, 32, 1, 0, 0, 0]).collect();
    words.extend([36, 0, 0]);
    reads(&[(&nested(MAX_LISTS - 1), &words, u64::from(most))]);
    refuses(&[(&nested(MAX_LISTS), TooDeep)]);
}

/// Words are flattened inside a let; as a head it ends a chain of applications. A let of a name is taken as before.
#[test]
fn flattening() {
    let cases: [(&[u32], &[u32]); 4] = [
        (
            &[
                38, 0, 1, 37, 1, 1, 52, 0, 0, 37, 2, 1, 38, 0, 1, 37, 3, 1, 37, 4, 1,
            ],
            &[
                38, 0, 1, 37, 1, 1, 52, 0, 0, 37, 2, 1, 38, 0, 1, 37, 3, 1, 37, 4, 1,
            ],
        ),
        (
            &[
                52, 7, 9, 38, 0, 0, 38, 0, 0, 37, 1, 1, 38, 0, 1, 33, 0, 38, 0, 1, 33, 1, 37, 2, 1,
            ],
            &[
                52, 7, 9, 38, 0, 0, 37, 1, 1, 38, 0, 2, 33, 1, 33, 0, 37, 2, 1,
            ],
        ),
        (
            &[52, u32::MAX, u32::MAX, 33, 1, 33, 0],
            &[52, u32::MAX, u32::MAX, 33, 1, 33, 0],
        ),
        (&[48, 1, 1, 33, 1, 37, 1, 1], &[48, 1, 1, 33, 1, 37, 1, 1]),
    ];
    for (words, flat) in cases {
        assert_eq!(flatten_owned(words).unwrap().encode(), flat, "{words:?}");
    }
    for words in [
        &[52][..],
        &[52, 0],
        &[52, 0, 0],
        &[52, 0, 0, 33, 1],
        &[52, 0, 0, 33, 1, 33],
        &[52, 0, 0, 33, 1, 33, 1, 33],
        &[53, 0, 0, 0, 33, 1],
    ] {
        assert_eq!(flatten_owned(words), Err(BadWords), "{words:?}");
    }
}

/// A reader's count is its start, and one for each number that its answers bind, lets among them.
#[test]
fn counts() {
    let mut reader = Reader::open(5);
    let text = b"(lambda ((x Int)) (let (y x) (exists ((z Int)) (let (x y) (= x z)))))";
    let read = reader.solution_owned(text).unwrap();
    assert_eq!(
        read.to_string(),
        "(lambda ((%5 Int)) (let (%6 %5) (exists ((%7 Int)) (let (%8 %6) (= %8 %7)))))"
    );
    assert_eq!(reader.count(), 9);
    let refused = reader.solution_owned(b"(lambda () (let (y 1) (f y)))");
    assert_eq!(refused, Err(Malformed));
    assert_eq!(reader.count(), 9);
    // The refused call left no name behind.
    let named = reader.solution_owned(b"(lambda () y)").unwrap();
    assert!(matches!(named.body, Expr::Var(_)));
}

#[test]
fn terms() {
    let text = b"(lambda ((x Int)) (let (x 1) (< x 2)))";
    let read = Reader::open(0).solution_owned(text).unwrap();
    let term = read.smtlib(text);
    assert_eq!(
        term.as_deref(),
        Ok("((|v 0| Int)) (let ((|v 1| 1)) (< |v 1| 2))")
    );
    let stored = [0, 48, 0, 1, 32, 1, 0, 0, 0, 37, 0, 1];
    let named = Solution::decode(&stored).unwrap();
    assert_eq!(
        named.smtlib(b"x").as_deref(),
        Ok("() (let ((|n x| 1)) |n x|)")
    );
    assert_eq!(
        named.with_text(b"x").to_string(),
        "(lambda () (let (x 1) x))"
    );
}
