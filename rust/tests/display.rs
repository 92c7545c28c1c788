//! Terms as people read them, with their text and without.

use pinhkray::{Reader, Span};

#[test]
fn expressions() {
    let cases = [
        ("(- (+ 1 2))", "(- (+ 1 2))"),
        ("-5", "(- 5)"),
        ("(if true x \"s\")", "(if true x \"s\")"),
        ("(and)", "(and)"),
        (
            "(or (not x) (=> a b) (<=> a b))",
            "(or (not x) (=> a b) (<=> a b))",
        ),
        ("(!= (mod a 2) (/ b c))", "(!= (mod a 2) (/ b c))"),
        ("(lit \"#b101\" (BitVec Size3))", "(_ bv5 3)"),
        ("(let (x 1) (is$Cons x))", "(let (%0 1) (is$Cons %0))"),
        (
            "(exists ((x Int) (y (List Int))) (= x z))",
            "(exists ((%0 Int) (%1 (List Int))) (= %0 z))",
        ),
        ("((((as apply Int) f) a) é)", "(((f : Int) a) é)"),
        ("(((as apply Int) arr_store_m))", "((Map_store : Int))"),
    ];
    for (text, shown) in cases {
        let term = Reader::open(0).expression_owned(text.as_bytes()).unwrap();
        assert_eq!(term.with_text(text.as_bytes()).to_string(), shown);
    }
}

#[test]
fn sorts() {
    let cases = [
        ("Int", "Int"),
        ("bool", "Bool"),
        ("real", "Real"),
        ("Str", "Str"),
        ("(BitVec Size32)", "(BitVec Size32)"),
        ("@(7)", "@(7)"),
        (
            "(func 1 (Int @(0)) Bool)",
            "(abs 0 (function Int (function @(0) Bool)))",
        ),
        ("(Map_t Int (Set_Set Str))", "(Map_t Int (Set_Set Str))"),
        ("(Pair (A) (List B))", "(Pair A (List B))"),
    ];
    for (text, shown) in cases {
        let sort = Reader::open(0).sort_owned(text.as_bytes()).unwrap();
        assert_eq!(sort.with_text(text.as_bytes()).to_string(), shown);
    }
}

#[test]
fn trees_binds_and_solutions() {
    let text = b"(lambda ((x Int)) (< x y))";
    let mut reader = Reader::open(9);
    let solution = reader.solution_owned(text).unwrap();
    assert_eq!(
        solution.with_text(text).to_string(),
        "(lambda ((%9 Int)) (< %9 y))"
    );
    assert_eq!(solution.to_string(), "(lambda ((%9 Int)) (< %9 [23..24]))");
    let text = b"((x Int) (and ($k x y) (not x)))";
    let bind = reader.bind_owned(text).unwrap();
    assert_eq!(
        bind.with_text(text).to_string(),
        "((x Int) ($k x y) (not x))"
    );
    let text = b" ( a  \"b c\" +7 1e5 true () ) ";
    let (tree, _) = reader.read_one_owned(text).unwrap();
    assert_eq!(
        tree.with_text(text).to_string(),
        "(a \"b c\" 7 1e5 true ())"
    );
    assert_eq!(tree.to_string(), "([3..4] \"[7..10]\" 7 [15..18] true ())");
}

/// Another text than the one that was read gives other names, or the places where it is too short.
#[test]
fn names_outside_the_text() {
    let name = Span {
        start: 2,
        len: u32::MAX,
    };
    assert_eq!(name.with_text(b"abc").to_string(), "[2..4294967297]");
    let half = Span { start: 1, len: 1 };
    assert_eq!(half.with_text("aé".as_bytes()).to_string(), "[1..2]");
    assert_eq!(format!("{:>9}", half), "[1..2]");
}
