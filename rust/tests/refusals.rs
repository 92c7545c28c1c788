//! Each refusal by its smallest example, what it leaves behind, and the numbers.

use pinhkray::{
    flatten, flatten_owned, Expr, Reader, Refusal, Span, Tree, MAX_BYTES, MAX_EXPRESSIONS,
    MAX_LISTS,
};
use Refusal::*;

/// Lends slices full of ones to the solution operation, and looks at what a refusal leaves.
fn solution(count: u64, text: &[u8]) -> Option<Refusal> {
    let mut reader = Reader::open(count);
    let (mut tree, mut draft, mut out) = ([1; 512], [1; 512], [1; 512]);
    let answer = reader.solution(text, &mut tree, &mut draft, &mut out);
    assert_eq!((tree, draft), ([0; 512], [0; 512]));
    let refusal = answer.err()?;
    assert_eq!(out, [0; 512]);
    assert_eq!(reader.count(), count);
    Some(refusal)
}

#[test]
fn numbers_of_a_solution() {
    let deep = "(".repeat(MAX_LISTS + 1);
    let long = " ".repeat(MAX_BYTES + 1);
    let wide = format!("(lambda () (and {}))", "1 ".repeat(200));
    let cases: [(u32, &[u8]); 14] = [
        (1, long.as_bytes()),
        (2, b"\xff"),
        (3, b""),
        (4, b")"),
        (5, b"\""),
        (6, deep.as_bytes()),
        (7, wide.as_bytes()),
        (8, b"a"),
        (9, b"(lambda () 1.5)"),
        (10, b"(lambda ((x Int) (x Int)) x)"),
        (11, b"(lambda () (lit \"#b\" (BitVec Size3)))"),
        (12, b"(lambda ((x (func 65 () Int))) x)"),
        (13, b"(lambda ((x Int)) x)"),
        (17, b"(lambda ((x Int)) (lit \"#b0\" (1 Size2)))"),
    ];
    for (number, text) in cases {
        let refusal = solution(u64::MAX, text).expect("a refusal");
        assert_eq!(
            refusal.number(),
            number,
            "{}",
            String::from_utf8_lossy(text)
        );
    }
    assert_eq!(solution(u64::MAX - 1, b"(lambda ((x Int)) x)"), None);
}

#[test]
fn numbers_of_the_others() {
    let mut reader = Reader::open(0);
    assert_eq!(reader.read_one_owned(b""), Err(EndsEarly));
    assert_eq!(reader.read_one_owned(b")"), Err(StrayClose));
    assert_eq!(reader.read_one_owned(b"@"), Err(Unclosed));
    assert_eq!(reader.read_one_owned(b"x \xff"), Err(NotUtf8));
    assert_eq!(reader.read_all_owned(b"x )"), Err(StrayClose));
    assert_eq!(reader.read_one(b"(a", &mut []), Err(EndsEarly));
    assert_eq!(reader.sort_owned(b"()"), Err(Malformed));
    assert_eq!(reader.sort_owned(b"(func -1 () Int)"), Err(FuncNumber));
    assert_eq!(reader.expression_owned(b"1."), Err(Decimal));
    assert_eq!(reader.expression_owned(b"(lit \"#b2\")"), Err(BadBits));
    assert_eq!(
        reader.bind_owned(b"((x Int) (lit \"#b01\" (BitVec Size1)))"),
        Err(WrongWidth)
    );
    assert_eq!(
        reader.expression_owned(b"(exists ((x Int) (x Int)) x)"),
        Err(RepeatedName)
    );
    assert_eq!(reader.bind_owned(b"((x Int) (1.5))"), Err(Decimal));
    assert_eq!(reader.bind_owned(b"((x Int))"), Err(Malformed));
    assert_eq!(reader.count(), 0);
    let mut last = Reader::open(u64::MAX);
    assert_eq!(
        last.expression_owned(b"(exists ((x Int)) ())"),
        Err(Malformed)
    );
    assert_eq!(
        last.expression_owned(b"(exists ((x Int)) x)"),
        Err(NumbersSpent)
    );
    assert_eq!(
        last.bind_owned(b"((x Int) (exists ((y Int)) y))"),
        Err(NumbersSpent)
    );
    assert_eq!(last.count(), u64::MAX);
}

/// What a `lit` is refused with, in this order: its string, its digits, its size, and how many digits there are.
#[test]
fn numbers_of_a_literal() {
    let mut reader = Reader::open(0);
    let ones = "1".repeat(128);
    let zeros = "0".repeat(300);
    let cases: [(&str, Result<(u128, u32), Refusal>); 27] = [
        ("\"#x1\" 5", Err(Malformed)),
        ("\"#b\" (BitVec Size0)", Err(BadBits)),
        ("\"#b2\"", Err(BadBits)),
        ("\"#b2\" 5", Err(BadBits)),
        ("\"#b+1\" (BitVec Size2)", Err(BadBits)),
        ("\"#b1+1\" (BitVec Size3)", Err(BadBits)),
        ("\"#b 1\" (BitVec Size2)", Err(BadBits)),
        ("\"#bé\" (BitVec Size2)", Err(BadBits)),
        (&format!("\"#b1{ones}\" (BitVec Size129)"), Err(BadBits)),
        (&format!("\"#b1{ones}\""), Err(BadBits)),
        ("\"#b1\"", Err(Malformed)),
        ("\"#b1\" 5", Err(Malformed)),
        ("\"#b1\" (BitVec Size)", Err(Malformed)),
        ("\"#b1\" (BitVec Size1 x)", Err(Malformed)),
        ("\"#b1\" (BitVec Size4294967297)", Err(Malformed)),
        ("\"#b1\" (BitVec Size4294967295)", Err(WrongWidth)),
        ("\"#b0\" (BitVec Size0)", Err(WrongWidth)),
        ("\"#b1\" (BitVec Size2)", Err(WrongWidth)),
        ("\"#b01\" (BitVec Size1)", Err(WrongWidth)),
        (&format!("\"#b{ones}\" (BitVec Size129)"), Err(WrongWidth)),
        (&format!("\"#b0{ones}\" (BitVec Size128)"), Err(WrongWidth)),
        ("\"#b1\" (5 Size+01)", Ok((1, 1))),
        ("\"#b101\" (BitVec Size3)", Ok((5, 3))),
        ("\"#b001\" (BitVec Size3)", Ok((1, 3))),
        (&format!("\"#b{ones}\" (a Size128)"), Ok((u128::MAX, 128))),
        (&format!("\"#b0{ones}\" (a Size129)"), Ok((u128::MAX, 129))),
        (&format!("\"#b{zeros}\" (a Size300)"), Ok((0, 300))),
    ];
    for (items, answer) in cases {
        let read = reader.expression_owned(format!("(lit {items})").as_bytes());
        let literal = answer.map(|(bits, width)| Expr::BitVec { bits, width });
        assert_eq!(read, literal, "{items}");
    }
}

/// A decimal has a digit: `inf`, `infinity` and `nan` are names, in any case, and a sign belongs to the name.
#[test]
fn decimals_have_digits() {
    let mut reader = Reader::open(0);
    let whole = |text: &str| Span {
        start: 0,
        len: text.len() as u32,
    };
    for word in [
        "inf",
        "-inf",
        "+nan",
        "NaN",
        "Infinity",
        "-INFINITY",
        "--inf",
        "inf0",
        "nan.",
    ] {
        let read = reader.expression_owned(word.as_bytes());
        assert_eq!(read, Ok(Expr::Var(whole(word))), "{word}");
        let (tree, _) = reader.read_one_owned(word.as_bytes()).unwrap();
        assert_eq!(tree, Tree::Symbol(whole(word)), "{word}");
        let sort = reader.sort_owned(word.as_bytes()).unwrap();
        assert_eq!(sort.with_text(word.as_bytes()).to_string(), word);
    }
    for decimal in [
        "1e5",
        ".5",
        "5.",
        "-1E-5",
        "170141183460469231731687303715884105728",
    ] {
        assert_eq!(
            reader.expression_owned(decimal.as_bytes()),
            Err(Decimal),
            "{decimal}"
        );
        let (tree, _) = reader.read_one_owned(decimal.as_bytes()).unwrap();
        assert_eq!(tree, Tree::Decimal(whole(decimal)), "{decimal}");
        assert_eq!(
            reader.sort_owned(decimal.as_bytes()),
            Err(Malformed),
            "{decimal}"
        );
    }
    // Bound by their spelling, and repeated by it.
    let bound = reader
        .solution_owned(b"(lambda ((inf Int)) (< inf 5))")
        .unwrap();
    assert!(matches!(&bound.body, Expr::Atom(_, es) if matches!(es[0], Expr::Fresh(_))));
    let other = reader
        .solution_owned(b"(lambda ((inf Int)) (< -inf 5))")
        .unwrap();
    assert!(matches!(&other.body, Expr::Atom(_, es) if matches!(es[0], Expr::Var(_))));
    let twice = reader.solution_owned(b"(lambda ((nan Int) (nan Int)) 1)");
    assert_eq!(twice, Err(RepeatedName));
}

#[test]
fn numbers_of_flattening() {
    let mut out = [1; 8];
    for words in [
        &[][..],
        &[31],
        &[33, 2],
        &[16, 0, 1],
        &[42, 1],
        &[33, 1, 33],
        &[49, 42],
    ] {
        assert_eq!(flatten(words, &mut out), Err(BadWords));
        assert_eq!(out, [0; 8]);
    }
    let chain = |nots: usize| [vec![44; nots], vec![33, 1]].concat();
    assert!(flatten_owned(&chain(MAX_EXPRESSIONS - 1)).is_ok());
    assert_eq!(flatten_owned(&chain(MAX_EXPRESSIONS)), Err(TooDeep));
    assert_eq!(flatten(&[33, 1], &mut [0]), Err(NoRoom));
}

#[test]
fn limits_of_texts() {
    let reader = Reader::open(0);
    let nested = |lists: usize| "(".repeat(lists) + &")".repeat(lists);
    assert!(reader.read_one_owned(nested(MAX_LISTS).as_bytes()).is_ok());
    assert_eq!(
        reader.read_one_owned(nested(MAX_LISTS + 1).as_bytes()),
        Err(TooDeep)
    );
    assert!(reader.read_one_owned(&vec![b'a'; MAX_BYTES]).is_ok());
    assert_eq!(
        reader.read_one_owned(&vec![b'a'; MAX_BYTES + 1]),
        Err(TooLong)
    );
    assert_eq!(
        reader.read_all_owned(&vec![0xff; MAX_BYTES + 1]),
        Err(TooLong)
    );
}

#[test]
fn every_number_has_its_refusal() {
    assert_eq!(Refusal::ALL.len(), 17);
    for (refusal, number) in Refusal::ALL.iter().zip(1..) {
        assert_eq!(refusal.number(), number);
        assert_eq!(Refusal::from_number(number), Some(*refusal));
    }
    for none in [0, 18, u32::MAX] {
        assert_eq!(Refusal::from_number(none), None);
    }
}

#[test]
fn every_refusal_is_an_error_with_a_sentence_of_its_own() {
    let sentence = |refusal: &Refusal| (refusal as &dyn std::error::Error).to_string();
    let mut sentences: Vec<String> = Refusal::ALL.iter().map(sentence).collect();
    assert_eq!(
        sentences[3],
        "a `)` stands where an expression should start"
    );
    sentences.sort();
    sentences.dedup();
    assert_eq!(sentences.len(), 17);
}

#[test]
fn a_sentence_takes_its_width() {
    assert_eq!(format!("{NotUtf8:>23}."), "  the text is not UTF-8.");
    assert_eq!(format!("{NotUtf8:.8}."), "the text.");
}
