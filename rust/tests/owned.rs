//! Owned terms: what they are, that no text within the limits lacks room, and sorts of any depth.

use pinhkray::{
    flatten_owned, BinOp, Bind, DecodeError, Expr, Fresh, Predicate, Reader, Relation, Solution,
    Sort, SortCtor, Span, ThyFunc, Tree, ANSWER_WORDS, MAX_BYTES, MAX_EXPRESSIONS, MAX_LISTS,
    TREE_WORDS,
};
use std::collections::HashSet;

fn span(start: u32, len: u32) -> Span {
    Span { start, len }
}

#[test]
fn a_solution() {
    let text = b"(lambda ((x Int)) (< x 5))";
    let solution = Reader::open(2).solution_owned(text).unwrap();
    let less = [Expr::Fresh(Fresh(2)), Expr::Numeral(5)];
    let body = Expr::Atom(Relation::Lt, Box::new(less));
    let params = vec![(Fresh(2), Sort::Int)];
    assert_eq!(solution, Solution { params, body });
    assert_eq!(solution.clone(), solution);
}

#[test]
fn trees() {
    let text = "(é \"s t\" -7 1.5 true) @(0)";
    let reader = Reader::open(0);
    let (tree, next) = reader.read_one_owned(text.as_bytes()).unwrap();
    let items = vec![
        Tree::Symbol(span(1, 2)),
        Tree::Quoted(span(5, 3)),
        Tree::Integer(-7),
        Tree::Decimal(span(13, 3)),
        Tree::Boolean(true),
    ];
    assert_eq!((&tree, next), (&Tree::List(items), 22));
    assert_eq!(span(1, 2).of(text.as_bytes()), Some("é"));
    assert_eq!(span(1, 1).of(text.as_bytes()), None);
    assert_eq!(span(u32::MAX, u32::MAX).of(text.as_bytes()), None);
    let all = reader.read_all_owned(text.as_bytes()).unwrap();
    assert_eq!(all, [tree, Tree::Symbol(span(23, 4))]);
    let least = reader.read_one_owned(i128::MIN.to_string().as_bytes());
    assert_eq!(least, Ok((Tree::Integer(i128::MIN), 40)));
}

#[test]
fn a_bind() {
    let bind = Reader::open(0).bind_owned(b"((x Int) (and ($k x y) (is$C x)))");
    let kvar = Predicate::Kvar(span(15, 2), vec![span(18, 1), span(20, 1)]);
    let test = Expr::IsCtor(span(27, 1), Box::new(Expr::Var(span(29, 1))));
    let predicates = vec![kvar, Predicate::Expr(test)];
    assert_eq!(
        bind,
        Ok(Bind {
            name: span(2, 1),
            sort: Sort::Int,
            predicates
        })
    );
}

/// An expression of every kind and a sort of every kind, there and back.
#[test]
fn every_kind() {
    let texts = [
        "(exists ((a Int) (b bool) (c real) (d Str) (e (BitVec Size3)) (f Size9) (g @(4294967296))) true)",
        "(exists ((a (func 2 (Int @(0)) Bool)) (b (Set_Set Int)) (c (Map_t Int Bool)) (d (List D))) a)",
        "(and (or \"s\" (lit \"#b101\" (BitVec Size3))) (not x) (=> a b) (<=> a b) (= a b) (!= a b))",
        "(if (< a b) (+ 1 -2) (let (n 340282366) (mod (/ n 2) (* (- n) (- n 1)))))",
        "((((as apply Int) bvadd) x) (is$Cons y) (> a b) (>= a b) (<= a b))",
    ];
    let mut seen = String::new();
    for text in texts {
        let mut out = vec![0; ANSWER_WORDS * text.len()];
        let mut tree = vec![0; TREE_WORDS * text.len()];
        let mut reader = Reader::open(u64::MAX - 9);
        let words = reader
            .expression(text.as_bytes(), &mut tree, &mut out)
            .unwrap()
            .words;
        let term = Expr::decode(&out[..words]).unwrap();
        assert_eq!(term.encode(), out[..words]);
        seen += &format!("{term:?}");
        assert_eq!(
            Reader::open(u64::MAX - 9).expression_owned(text.as_bytes()),
            Ok(term)
        );
    }
    let kinds = "Numeral Boolean String BitVec Fresh Var App Neg BinaryOp IfThenElse And Or Not Imp Iff Atom ThyFunc IsCtor Exists LetFresh";
    assert!(kinds.split(' ').all(|kind| seen.contains(kind)));
    // A let of a name is in stored words alone.
    assert!(!seen.contains("Let {"));
    let stored = [48, 3, 1, 33, 1, 37, 3, 1];
    let named = Expr::Let {
        name: span(3, 1),
        binding: Box::new(Expr::Boolean(true)),
        body: Box::new(Expr::Var(span(3, 1))),
    };
    assert_eq!(Expr::decode(&stored).as_ref(), Ok(&named));
    assert_eq!(named.encode(), stored);
}

#[test]
fn codes() {
    assert_eq!(
        [BinOp::ALL.len(), Relation::ALL.len(), ThyFunc::ALL.len()],
        [5, 6, 42]
    );
    for (function, number) in ThyFunc::ALL.iter().zip(0..) {
        assert_eq!(function.number(), number);
        let read = Reader::open(0).expression_owned(function.spelling().as_bytes());
        assert_eq!(read, Ok(Expr::ThyFunc(*function)));
    }
    for op in BinOp::ALL {
        let read = Reader::open(0).expression_owned(format!("({} 1 2)", op.spelling()).as_bytes());
        let both = Box::new([Expr::Numeral(1), Expr::Numeral(2)]);
        assert_eq!(read, Ok(Expr::BinaryOp(*op, both)));
    }
    for relation in Relation::ALL {
        let text = format!("({} 1 2)", relation.spelling());
        let both = Box::new([Expr::Numeral(1), Expr::Numeral(2)]);
        let read = Reader::open(0).expression_owned(text.as_bytes());
        assert_eq!(read, Ok(Expr::Atom(*relation, both)));
    }
}

#[test]
fn applications_are_joined() {
    let text = b"((((as apply Int) f) a) b)";
    let curried = Reader::open(0).expression_owned(text).unwrap();
    let arguments = vec![Expr::Var(span(21, 1)), Expr::Var(span(24, 1))];
    let head = Box::new(Expr::Var(span(18, 1)));
    let joined = Expr::App {
        arguments,
        output: None,
        head,
    };
    assert_ne!(curried, joined);
    assert_eq!(flatten_owned(&curried.encode()), Ok(joined));
}

/// Repeats a part between a start and an end, up to the longest text.
fn longest(start: &str, part: &str, end: &str) -> Vec<u8> {
    let times = (MAX_BYTES - start.len() - end.len()) / part.len();
    (start.to_owned() + &part.repeat(times) + end).into_bytes()
}

/// The texts that need the most words for their length.
#[test]
fn there_is_room_for_every_text() {
    let mut reader = Reader::open(0);
    for text in [
        longest("", "1(1)", ""),
        longest("", "1 ", ""),
        longest("", "()", ""),
    ] {
        reader.read_all_owned(&text).unwrap();
    }
    assert_eq!(reader.read_one_owned(b"1").unwrap().0, Tree::Integer(1));
    reader
        .sort_owned(&longest("(a", "(func 64()a)", ")"))
        .unwrap();
    reader.sort_owned(&longest("(a", " a", ")")).unwrap();
    reader.expression_owned(b"1").unwrap();
    reader.expression_owned(b"-1").unwrap();
    for part in [
        "-1 ",
        "(-1)",
        "((a apply(func 64()a))a)",
        "(exists((a(func 64()a)))a)",
    ] {
        reader
            .expression_owned(&longest("(and ", part, ")"))
            .unwrap();
        reader
            .bind_owned(&longest("((x Int)(or ", part, "))"))
            .unwrap();
        reader
            .solution_owned(&longest("(a()(and ", part, "))"))
            .unwrap();
    }
    reader
        .bind_owned(&longest("((x(a", "(func 64()a)", "))(and))"))
        .unwrap();
    let params: String = (0..1700).map(|i| format!("(v{i}(func 64()a))")).collect();
    reader
        .solution_owned(format!("(a({params})a)").as_bytes())
        .unwrap();
}

/// So deep that a function that calls itself would run out of stack.
#[test]
fn deep_sorts() {
    let mut words = vec![5; 300_000];
    words.extend([10, 2, 3, 4, 1, 7, 1, 2]);
    let sort = Sort::decode(&words).unwrap();
    assert_eq!(sort.encode(), words);
    let copy = sort.clone();
    assert_eq!(copy, sort);
    assert!(sort
        .to_string()
        .ends_with(&("([3..7] @(8589934593))".to_owned() + &")".repeat(300_000))));
    assert_eq!(HashSet::from([sort, copy]).len(), 1);
    words.pop();
    assert_eq!(Sort::decode(&words), Err(DecodeError::EndsEarly));
    let inner = [
        vec![38, 1, 0],
        vec![8; 200_000],
        vec![1; 200_001],
        vec![33, 1],
    ]
    .concat();
    let applied = flatten_owned(&inner).unwrap();
    assert_eq!(applied.encode(), inner);
    assert_eq!(applied.clone(), applied);
}

#[test]
fn a_func_of_many_inputs() {
    let text = longest("(func 3 (", "a ", ") Int)");
    let sort = Reader::open(0).sort_owned(&text).unwrap();
    let mut inputs = 0;
    let mut rest = &sort;
    loop {
        rest = match rest {
            Sort::Abs(_, over) => over,
            Sort::Func(input, output) => {
                assert!(matches!(**input, Sort::App(SortCtor::Data(_), _)));
                inputs += 1;
                output
            }
            other => break assert_eq!(*other, Sort::Int),
        };
    }
    assert_eq!(inputs, (MAX_BYTES - 15) / 2);
}

/// The deepest terms are decoded, printed and dropped in a thread with as little stack as a call may take.
#[test]
fn deep_terms_in_a_small_stack() {
    let small = std::thread::Builder::new().stack_size(1024 * 1024);
    let deep = || {
        let chain = [vec![44; MAX_EXPRESSIONS - 1], vec![33, 1]].concat();
        let term = flatten_owned(&chain).unwrap();
        assert_eq!(term.clone().to_string().len(), 5 * 127 + 4 + 127);
        let nested = "(".repeat(MAX_LISTS) + &")".repeat(MAX_LISTS);
        let (tree, _) = Reader::open(0).read_one_owned(nested.as_bytes()).unwrap();
        assert_eq!(tree.clone().to_string(), nested);
    };
    small.spawn(deep).unwrap().join().unwrap();
}
