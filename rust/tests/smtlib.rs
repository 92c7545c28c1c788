//! Solutions as SMT-LIB terms: forms, foldings, refusals and their order, by their smallest examples.

use pinhkray::Refusal::{self, *};
use pinhkray::{smtlib, version, Expr, Fresh, Reader, Solution, Sort, SortCtor, Span};
use pinhkray::{MAX_BYTES, MAX_EXPRESSIONS, TERM_BYTES, VERSION};

/// A byte that no call here writes.
const OLD: u8 = 0xfe;

/// Writes into slices just long enough, one byte short and longer, and looks at every byte.
fn written(words: &[u32], text: &str) -> Result<String, Refusal> {
    let text = text.as_bytes();
    let mut out = [OLD; 1000];
    let bytes = match smtlib(words, text, &mut out) {
        Ok(bytes) => bytes,
        Err(refusal) => {
            assert_eq!(out, [0; 1000], "{words:?}");
            assert_eq!(smtlib(words, text, &mut []), Err(refusal), "{words:?}");
            return Err(refusal);
        }
    };
    assert!(out[bytes..].iter().all(|b| *b == OLD), "{words:?}");
    let mut exact = vec![OLD; bytes];
    assert_eq!(smtlib(words, text, &mut exact), Ok(bytes));
    assert_eq!(exact, out[..bytes]);
    let mut short = vec![OLD; bytes - 1];
    assert_eq!(smtlib(words, text, &mut short), Err(NoRoom));
    assert!(short.iter().all(|b| *b == 0));
    Ok(String::from_utf8(exact).expect("ASCII"))
}

fn accepts(cases: &[(&[u32], &str, &str)]) {
    for (words, text, term) in cases {
        assert_eq!(
            written(words, text),
            Ok(term.to_string()),
            "{words:?} on {text:?}"
        );
    }
}

fn refuses(refusal: Refusal, cases: &[(&[u32], &str)]) {
    for (words, text) in cases {
        assert_eq!(written(words, text), Err(refusal), "{words:?} on {text:?}");
    }
}

#[test]
fn leaves() {
    accepts(&[
        (&[0, 33, 1], "", "() true"),
        (&[0, 33, 0], "", "() false"),
        (&[0, 32, 0, 0, 0, 0], "", "() 0"),
        (
            &[0, 32, 0, 0, 0, 2147483648],
            "",
            "() 170141183460469231731687303715884105728",
        ),
        (&[0, 36, 0, 1], "", "() |v 4294967296|"),
        (&[0, 37, 0, 3], "v 3", "() |n v 3|"),
        (&[0, 37, 0, 4], "true", "() |n true|"),
        (&[0, 37, 0, 0], "", "() |n |"),
        (&[0, 37, 1, 0], "x", "() |n |"),
        (&[0, 37, 1, 1], "|x\"", "() |n x|"),
        (&[0, 34, 0, 3], "a;b", "() \"a;b\""),
        (&[0, 34, 0, 0], "", "() \"\""),
        (&[0, 37, 0, 2], " ~", "() |n  ~|"),
    ]);
}

#[test]
fn nodes() {
    accepts(&[
        (
            &[1, 0, 0, 1, 47, 4, 36, 0, 0, 32, 5, 0, 0, 0],
            "",
            "((|v 0| Int)) (< |v 0| 5)",
        ),
        (&[0, 39, 32, 5, 0, 0, 0], "", "() (- 5)"),
        (&[0, 44, 32, 5, 0, 0, 0], "", "() (not 5)"),
        (
            &[0, 41, 33, 1, 33, 0, 33, 1],
            "",
            "() (ite true false true)",
        ),
        (&[0, 45, 33, 1, 33, 0], "", "() (=> true false)"),
        (&[0, 46, 33, 1, 33, 0], "", "() (= true false)"),
        (
            &[0, 48, 0, 1, 32, 1, 0, 0, 0, 47, 4, 37, 0, 1, 32, 2, 0, 0, 0],
            "x",
            "() (let ((|n x| 1)) (< |n x| 2))",
        ),
        (&[0, 50, 0, 4, 33, 1], "Cons", "() ((_ is |n Cons|) true)"),
        (
            &[0, 51, 2, 4, 0, 1, 4, 0, 2, 36, 4, 0],
            "",
            "() (exists ((|v 4| Int) (|v 4| Bool)) |v 4|)",
        ),
        (
            &[0, 52, 3, 0, 32, 1, 0, 0, 0, 36, 3, 0],
            "",
            "() (let ((|v 3| 1)) |v 3|)",
        ),
        (
            &[0, 52, u32::MAX, u32::MAX, 36, 3, 0, 33, 1],
            "",
            "() (let ((|v 18446744073709551615| |v 3|)) true)",
        ),
    ]);
    for (operator, name) in ["+", "-", "*", "div", "mod"].iter().enumerate() {
        let words = [0, 40, operator as u32, 33, 1, 33, 0];
        assert_eq!(written(&words, ""), Ok(format!("() ({name} true false)")));
    }
    let relations = ["=", "distinct", ">", ">=", "<", "<="];
    for (relation, name) in relations.iter().enumerate() {
        let words = [0, 47, relation as u32, 33, 1, 33, 0];
        assert_eq!(written(&words, ""), Ok(format!("() ({name} true false)")));
    }
}

#[test]
fn foldings() {
    accepts(&[
        (&[0, 42, 0], "", "() true"),
        (&[0, 42, 1, 43, 0], "", "() false"),
        (&[0, 43, 1, 42, 1, 32, 7, 0, 0, 0], "", "() 7"),
        (&[0, 42, 2, 42, 0, 43, 1, 33, 1], "", "() (and true true)"),
        (
            &[0, 42, 2, 42, 2, 33, 1, 33, 1, 33, 0],
            "",
            "() (and (and true true) false)",
        ),
        (&[0, 44, 51, 0, 33, 1], "", "() (not true)"),
        (&[0, 38, 0, 0, 32, 5, 0, 0, 0], "", "() 5"),
        (&[0, 38, 1, 0, 1, 38, 0, 0, 42, 0], "", "() true"),
    ]);
}

#[test]
fn applications() {
    accepts(&[
        (
            &[0, 38, 0, 1, 32, 1, 0, 0, 0, 37, 0, 1],
            "f",
            "() (|n f| 1)",
        ),
        (&[0, 38, 0, 1, 33, 1, 36, 9, 0], "", "() (|v 9| true)"),
        (
            &[0, 38, 1, 1, 33, 1, 6, 0, 37, 0, 1],
            "f",
            "() (|n f| true)",
        ),
        (
            &[0, 38, 1, 1, 33, 1, 10, 2, 1, 1, 0, 37, 0, 1],
            "f|",
            "() (|n f| true)",
        ),
        (&[0, 38, 0, 1, 32, 1, 0, 0, 0, 49, 27], "", "() (bvadd 1)"),
    ]);
    let functions = "bvule bvsle bvuge bvsge bvugt bvsgt bvult bvslt bvudiv bvsdiv bvurem bvsrem bvlshr bvashr bvand bvor \
                     bvxor bvnot bvadd bvneg bvsub bvmul bvshl";
    for (number, name) in (9..).zip(functions.split(' ')) {
        let words = [0, 38, 0, 2, 33, 1, 33, 0, 49, number];
        assert_eq!(written(&words, ""), Ok(format!("() ({name} true false)")));
    }
    for number in (0..9).chain(32..42) {
        refuses(Unwritable, &[(&[0, 38, 0, 1, 33, 1, 49, number], "")]);
    }
    refuses(
        Unwritable,
        &[
            (&[0, 38, 0, 1, 33, 1, 42, 1, 37, 0, 1], "f"),
            (&[0, 38, 0, 1, 33, 1, 38, 0, 0, 37, 0, 1], "f"),
            (&[0, 38, 0, 1, 33, 1, 51, 0, 37, 0, 1], "f"),
            (&[0, 38, 0, 1, 33, 1, 52, 3, 0, 33, 1, 36, 3, 0], ""),
            (&[0, 49, 27], ""),
            (&[0, 38, 0, 0, 49, 27], ""),
            (&[0, 38, 0, 1, 49, 27, 37, 0, 1], "f"),
            (&[0, 38, 0, 1, 33, 1, 34, 0, 1], "|"),
        ],
    );
}

#[test]
fn sorts() {
    let sorts: [(&[u32], &str); 8] = [
        (&[1], "Int"),
        (&[2], "Bool"),
        (&[3], "Real"),
        (&[4], "String"),
        (&[5, 6, 3], "(_ BitVec 3)"),
        (&[10, 1, 2, 1, 2], "(Array Int Bool)"),
        (&[10, 2, 0, 1, 0], "|s T|"),
        (
            &[10, 2, 0, 1, 2, 10, 2, 0, 1, 1, 1, 2],
            "(|s T| (|s T| Int) Bool)",
        ),
    ];
    for (sort, name) in sorts {
        let words = [&[1, 0, 0], sort, &[33, 1]].concat();
        let term = format!("((|v 0| {name})) true");
        assert_eq!(written(&words, "T"), Ok(term));
        let words = [&[0, 51, 1, 0, 0], sort, &[33, 1]].concat();
        let term = format!("() (exists ((|v 0| {name})) true)");
        assert_eq!(written(&words, "T"), Ok(term));
    }
    let none: [&[u32]; 10] = [
        &[6, 8],
        &[5, 1],
        &[5, 5, 6, 8],
        &[5, 6, 0],
        &[7, 0, 0],
        &[8, 1, 2],
        &[9, 0, 1],
        &[10, 0, 1, 1],
        &[10, 1, 1, 10, 2, 0, 1, 0],
        &[10, 1, 3, 1, 1, 1],
    ];
    for sort in none {
        let words = [&[1, 0, 0], sort, &[33, 1]].concat();
        refuses(Unwritable, &[(&words, "|")]);
    }
    refuses(
        Unprintable,
        &[(&[1, 0, 0, 10, 2, 0, 1, 1, 6, 3, 33, 1], "|")],
    );
}

#[test]
fn bit_vectors() {
    accepts(&[
        (&[0, 35, 7, 0, 0, 0, 3], "", "() (_ bv7 3)"),
        (&[0, 35, 1, 0, 0, 0, u32::MAX], "", "() (_ bv1 4294967295)"),
        (
            &[0, 35, u32::MAX, u32::MAX, u32::MAX, u32::MAX, 128],
            "",
            "() (_ bv340282366920938463463374607431768211455 128)",
        ),
    ]);
    refuses(
        Unwritable,
        &[
            (&[0, 35, 8, 0, 0, 0, 3], ""),
            (&[0, 35, 0, 1, 0, 0, 32], ""),
            (&[0, 35, 0, 0, 0, 0, 0], ""),
            (&[0, 35, 0, 0, 0, 1 << 31, 127], ""),
        ],
    );
}

#[test]
fn bytes_of_names_and_strings() {
    for byte in 0..=127 {
        let text = char::from(byte).to_string();
        let good = (32..=126).contains(&byte) && !"|\"\\".contains(&text);
        for (kind, before, behind) in [(37, "|n ", "|"), (34, "\"", "\"")] {
            let term = format!("() {before}{text}{behind}");
            let answer = if good { Ok(term) } else { Err(Unprintable) };
            assert_eq!(written(&[0, kind, 0, 1], &text), answer, "byte {byte}");
        }
    }
    refuses(Unprintable, &[(&[0, 37, 0, 2], "é")]);
}

#[test]
fn words_are_judged_first() {
    refuses(
        BadWords,
        &[
            (&[], ""),
            (&[0], ""),
            (&[33, 1], ""),
            (&[1, 33, 1], ""),
            (&[4294967295, 0, 0, 1, 33, 1], ""),
            (&[0, 37, 0, 1, 0], "|"),
            (&[1, 0, 0, 6, 1, 31], ""),
            (&[0, 42, 2, 49, 0], ""),
            (&[0, 37, 2, 0], "x"),
            (&[0, 37, 1, u32::MAX], "x"),
            (&[0, 42, 2, 37, 0, 1, 37, 1, 1], "|"),
            (&[0, 38, 1, 0, 10, 2, 1, 0, 0, 33, 1], ""),
            (&[0, 52, 3, 0, 33, 1], ""),
            (&[0, 53, 3, 0, 33, 1, 33, 1], ""),
        ],
    );
    let chain = |nots: usize, end: &[u32]| [&[0], &vec![44; nots][..], end].concat();
    let deep = written(&chain(MAX_EXPRESSIONS - 1, &[33, 1]), "").unwrap();
    assert_eq!(deep.matches("(not ").count(), MAX_EXPRESSIONS - 1);
    refuses(TooDeep, &[(&chain(MAX_EXPRESSIONS, &[33, 1]), "")]);
    refuses(TooDeep, &[(&chain(MAX_EXPRESSIONS, &[37]), "")]);
    refuses(BadWords, &[(&chain(MAX_EXPRESSIONS, &[31]), "")]);
    refuses(BadWords, &[(&chain(MAX_EXPRESSIONS, &[]), "")]);
}

#[test]
fn refusals_in_the_order_of_the_words() {
    refuses(
        Unprintable,
        &[
            (&[0, 42, 2, 37, 0, 1, 49, 0], "|"),
            (&[0, 38, 0, 1, 37, 0, 1, 32, 5, 0, 0, 0], "|"),
            (&[0, 38, 0, 0, 34, 0, 1], "|"),
            (&[0, 48, 0, 1, 49, 0, 33, 1], "|"),
            (&[0, 52, 0, 0, 37, 0, 1, 49, 0], "|"),
            (&[0, 50, 0, 1, 49, 0], "|"),
        ],
    );
    refuses(
        Unwritable,
        &[
            (&[0, 42, 2, 49, 0, 37, 0, 1], "|"),
            (&[0, 52, 0, 0, 49, 0, 37, 0, 1], "|"),
            (&[1, 0, 0, 6, 1, 37, 0, 1], "|"),
        ],
    );
    let mut out = [OLD; 6];
    assert_eq!(smtlib(&[0, 33, 1], b"", &mut out), Err(NoRoom));
    assert_eq!(out, [0; 6]);
    let mut out = [OLD; 3];
    let words = [0, 42, 2, 33, 1, 37, 0, 1];
    assert_eq!(smtlib(&words, b"|", &mut out), Err(Unprintable));
    assert_eq!(smtlib(&[0, 49, 0], b"", &mut []), Err(Unwritable));
}

#[test]
fn texts() {
    let cases = [
        ("(lambda ((x Int)) (< x 5))", Ok("((|v 0| Int)) (< |v 0| 5)")),
        ("(lambda () true)", Ok("() true")),
        ("(lambda () (is$ l))", Ok("() ((_ is |n |) |n l|)")),
        (
            "(lambda () ((as apply Int) (and x y)))",
            Ok("() (and |n x| |n y|)"),
        ),
        ("(lambda () (((as apply Int) 5) x))", Err(Unwritable)),
        (
            "(lambda ((x Int)) (let (x 1) (< x 2)))",
            Ok("((|v 0| Int)) (let ((|v 1| 1)) (< |v 1| 2))"),
        ),
        (
            "(lambda ((l (List Int)) (m (Map_t Str Bool))) (exists ((y Real)) ((((as apply Int) f) l) y)))",
            Ok("((|v 0| (|s List| Int)) (|v 1| (Array String Bool))) (exists ((|v 2| Real)) (|n f| |v 0| |v 2|))"),
        ),
        ("(lambda ((s (Set_Set Int))) true)", Err(Unwritable)),
        ("(lambda () λ)", Err(Unprintable)),
        (
            "(lambda () (lit \"#b101\" (BitVec Size3)))",
            Ok("() (_ bv5 3)"),
        ),
    ];
    for (text, term) in cases {
        let solution = Reader::open(0).solution_owned(text.as_bytes()).unwrap();
        let written = solution.smtlib(text.as_bytes());
        assert_eq!(written, term.map(str::to_string), "{text}");
    }
}

/// Repeats a part between a start and an end, up to the longest text; a part's number is in it.
fn longest(start: &str, part: impl Fn(usize) -> String, end: &str) -> String {
    let mut text = start.to_owned();
    for i in 0.. {
        let next = part(i);
        if text.len() + next.len() + end.len() > MAX_BYTES {
            break;
        }
        text += &next;
    }
    text + end
}

/// The terms that are longest for their words, among them bound variables of the largest numbers.
#[test]
fn there_is_room_for_every_text() {
    let names = longest("(a()(and ", |i| format!("v{i} "), "))");
    let params = longest("(a(", |i| format!("(v{i} Str)"), ")true)");
    let bound = longest("(a()(exists(", |i| format!("(v{i} str)"), ")true))");
    let bits = longest(
        "(a()(and ",
        |_| format!("(lit\"#b{}\"(a Size128))", "1".repeat(128)),
        "))",
    );
    let lets = longest("(a()(and ", |_| "(let(a a)a)".to_owned(), "))");
    let numbers = longest("(a()(and ", |_| format!("-{} ", i128::MAX), "))");
    let nots = longest("(a()(and ", |_| "(not(!= a a))".to_owned(), "))");
    for text in [names, params, bound, bits, lets, numbers, nots] {
        let mut reader = Reader::open(u64::MAX - 10_000);
        let text = text.as_bytes();
        let words = reader.solution_owned(text).unwrap().encode();
        let mut out = vec![OLD; TERM_BYTES * words.len() + text.len()];
        assert!(smtlib(&words, text, &mut out).unwrap() > 2 * words.len());
    }
}

/// Names that share the bytes of a text.
#[test]
fn there_is_room_for_every_solution() {
    let text = [b'a'; 100];
    let name = || {
        Expr::Var(Span {
            start: 0,
            len: text.len() as u32,
        })
    };
    let made = Solution {
        params: vec![(Fresh(u64::MAX), Sort::Str); 50],
        body: Expr::And((0..1000).map(|_| name()).collect()),
    };
    let term = made.smtlib(&text).unwrap();
    let length = 2 + 50 * 34 - 1 + 1 + "(and)".len() + 1000 * 105;
    assert_eq!(term.len(), length);
    let outside = made.smtlib(&text[1..]);
    assert_eq!(outside, Err(BadWords));
}

/// So deep that a function that calls itself would run out of stack.
#[test]
fn deep_sorts() {
    let data = SortCtor::Data(Span { start: 0, len: 1 });
    let words = [
        vec![1, 0, 0],
        [10, 2, 0, 1, 1].repeat(100_000),
        vec![1, 33, 1],
    ]
    .concat();
    let solution = Solution::decode(&words).unwrap();
    assert!(matches!(&solution.params[0].1, Sort::App(name, _) if *name == data));
    let term = solution.smtlib(b"T").unwrap();
    let nested = "(|s T| ".repeat(100_000) + "Int" + &")".repeat(100_000);
    assert!(term == format!("((|v 0| {nested})) true"));
}

#[test]
fn the_linked_archive_is_of_this_version() {
    assert_eq!(version(), VERSION);
}
