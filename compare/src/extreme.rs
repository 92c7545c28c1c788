//! The deepest texts and the longest lists that the limits allow, and some just past them.

use crate::paper::{MAX_BYTES, MAX_LISTS};

/// What stands before and behind the rest, `n` times, round a core.
fn nest(before: &str, n: usize, core: &str, behind: &str) -> String {
    [&before.repeat(n), core, &behind.repeat(n)].concat()
}

/// As many items as there is room for between a beginning and an end.
fn fill(before: &str, mut items: impl Iterator<Item = String>, behind: &str) -> String {
    let mut text = before.to_string();
    while let Some(item) = items.next().filter(|i| text.len() + i.len() + behind.len() <= MAX_BYTES) {
        text.push_str(&item);
    }
    text + behind
}

fn same(item: &str) -> impl Iterator<Item = String> {
    std::iter::repeat(item.to_string())
}

/// Binders with the shortest names that differ.
fn binders() -> impl Iterator<Item = String> {
    let letters = || ('a'..='z').chain('A'..='Z').chain("!#$%&*,/:;<=>?[]^_`{|}~".chars());
    let one = letters().map(|a| format!("({a} a)"));
    let two = letters().flat_map(move |a| letters().map(move |b| format!("({a}{b} a)")));
    let three = letters().flat_map(move |a| letters().map(move |b| format!("({a}{b}a a)")));
    one.chain(two).chain(three)
}

/// Bytes of a literal beside its digits, where there are 10,000 or more.
const LITERAL: usize = "(lit \"#b\" (BitVec Size32768))".len();

/// A literal of so many digits, zeros but for the last, which says that it has so many more.
fn literal(digits: usize, more: usize, last: &str) -> String {
    format!("(lit \"#b{}{last}\" (BitVec Size{}))", "0".repeat(digits - last.len()), digits + more)
}

/// Nested as deep as can be: what the nesting is made of, and the text.
fn deepest() -> Vec<(&'static str, String)> {
    let max = MAX_LISTS;
    let bind = |sort: &str, predicate: &str| format!("((x {sort}) {predicate})");
    let lambda = |sort: &str, body: &str| format!("(lambda ((x {sort})) {body})");
    vec![
        ("lists", nest("(", max, "", ")")),
        ("lists, one too deep", nest("(", max + 1, "", ")")),
        ("lists round a name", nest("(", max, "x", ")")),
        ("Set_Set", nest("(Set_Set ", max, "Int", ")")),
        ("Map_t", nest("(Map_t Int ", max, "Int", ")")),
        ("data", nest("(A ", max, "Int", " Int)")),
        ("function, inputs", nest("(function ", max, "Int", " Int)")),
        ("function, outputs", nest("(function Int ", max, "Int", ")")),
        ("func, inputs", nest("(func 64 (", max / 2, "Int", ") Int)")),
        ("func, outputs", nest("(func 64 () ", max - 1, "Int", ")")),
        ("not", nest("(not ", max, "x", ")")),
        ("not, one too deep", nest("(not ", max + 1, "x", ")")),
        ("not round what is seen through", format!("(not {})", nest("(", max - 1, "x", ")"))),
        ("and", nest("(and x ", max, "x", " x)")),
        ("if", nest("(if x ", max, "x", " x)")),
        ("cast", nest("(cast ", max, "x", ")")),
        ("is$", nest("(is$C ", max, "x", ")")),
        ("let, bindings", nest("(let (x ", max / 2, "x", ") x)")),
        ("let, bodies", nest("(let (x 1) ", max - 1, "x", ")")),
        ("let, one too deep", nest("(let (x 1) ", max, "x", ")")),
        ("let, a name that hides itself", nest("(let (x x) ", max - 1, "x", ")")),
        ("let, bindings and bodies", nest("(let (x (let (y x) ", max / 3, "y", ")) x)")),
        ("let, heads", nest("(", max - 2, "(let (f f) f)", " f)")),
        ("let and exists", nest("(let (x x) (exists ((y Int)) ", max / 2 - 1, "(= x y)", "))")),
        ("let, the outermost name", {
            let lets: String = (0..max - 2).map(|i| format!("(let (x{i} x) ")).collect();
            format!("(let (x 1) {lets}x{})", ")".repeat(max - 2))
        }),
        ("let, pairs seen through", format!("(let {} x)", nest("(", max - 1, "x 1", ")"))),
        ("exists", nest("(exists ((x Int)) ", max - 2, "(not (not x))", ")")),
        ("exists, no binders", nest("(exists () ", max - 1, "x", ")")),
        ("exists, a sort below", nest("(exists ((x (Set_Set Int))) ", max - 3, "(+ x (not (not x)))", ")")),
        ("exists, a name repeated inside", nest("(exists ((x Int)) ", max - 2, "(exists () x)", ")")),
        ("exists, a name repeated", nest("(exists ((x Int)) ", max - 3, "(exists ((x Int) (x Int)) (not x))", ")")),
        ("applications, heads", nest("(", max - 2, "((as apply Int) f)", " a)")),
        ("applications, arguments", nest("((not f) ", max - 1, "x", ")")),
        ("apply", nest("((as apply Int) ", max - 1, "f", ")")),
        ("apply, sorts", format!("((as apply {}) f)", nest("(Set_Set ", max - 2, "Int", ")"))),
        ("a decimal", nest("(not ", max, "1.5", ")")),
        ("a bind's sort", bind(&nest("(Set_Set ", max - 2, "Int", ")"), "($k x)")),
        ("a bind's ands", bind("Int", &nest("(and ", max - 2, "($k x)", ")"))),
        ("a bind's nots", bind("Int", &nest("(not ", max - 1, "x", ")"))),
        ("a bind's exists", bind("Int", &nest("(exists ((y Int)) ", max - 3, "(not (not y))", ")"))),
        ("a bind's lists", bind("Int", &nest("(", max - 1, "x", ")"))),
        ("a bind's lets", bind("Int", &nest("(let (x x) ", max - 2, "x", ")"))),
        ("a solution's sort", lambda(&nest("(Set_Set ", max - 3, "Int", ")"), "x")),
        ("a solution's nots", lambda("Int", &nest("(not ", max - 1, "x", ")"))),
        ("a solution's exists", lambda("Int", &nest("(exists ((y Int)) ", max - 3, "(not (not y))", ")"))),
        ("a solution's lets", lambda("Int", &nest("(let (x x) ", max - 2, "x", ")"))),
        ("a solution's heads", lambda("Int", &nest("(", max - 3, "((as apply Int) f)", " x)"))),
        ("a solution's sorted heads", lambda("Int", &nest("((as apply Int) ", max - 2, "f", ")"))),
        ("a solution's arguments", lambda("Int", &nest("((not f) ", max - 2, "x", ")"))),
        ("a solution's heads in arguments", lambda("Int", &nest("(((as apply Int) (not f)) ", max - 3, "x", ")"))),
    ]
}

/// As long as can be: what fills the text, and the text.
fn longest() -> Vec<(&'static str, String)> {
    let deep = |core: &str| nest("(not ", MAX_LISTS - 1, core, ")");
    vec![
        ("and", fill("(and a", same(" a"), ")")),
        ("or", fill("(or a", same(" a"), ")")),
        ("and, lists", fill("(and", same("(a)"), ")")),
        ("and, one byte too long", format!("(and{})", " ".repeat(MAX_BYTES - 4))),
        ("and of ands", fill("(and", same("(and)"), ")")),
        ("nots", fill("(and", same("(not a)"), ")")),
        ("arguments", fill("((not f)a", same(" a"), ")")),
        ("apply, dropped items", fill("((as apply Int)a", same(" a"), ")")),
        ("surplus", fill("(not a", same(" a"), ")")),
        ("exists, binders", fill("(exists(", binders(), ")a)")),
        ("exists, binders and uses", fill(&fill("(exists(", binders().take(2500), ")(and"), same(" ;a"), "))")),
        ("exists, a name repeated", fill("(exists(", same("(a a)"), ")a)")),
        ("exists, one inside each", fill("(and", same("(exists((a a))a)"), ")")),
        ("lets", fill("(and", same("(let(a a)a)"), ")")),
        ("let, the body's uses", fill("(let(a 1)(and", same(" a"), "))")),
        ("let, the binding's uses", fill("(let(a 1)(let(b(and", same(" a"), "))b))")),
        ("let, uses of the outermost name", {
            let lets: String = (0..MAX_LISTS - 3).map(|i| format!("(let(b{i} 1)")).collect();
            fill(&format!("(let(a 1){lets}(and"), same(" a"), &")".repeat(MAX_LISTS - 1))
        }),
        ("a solution's lets", fill("(lambda((a a))(and", same("(let(a a)a)"), "))")),
        ("a bind's lets", fill("((x Int)(and", same("(let(x x)x)"), "))")),
        ("a list at the deepest place", {
            let room = MAX_BYTES - deep("(or)").len();
            deep(&format!("(or{})", " a".repeat(room / 2)))
        }),
        ("arguments of a sort", fill("(A a", same(" a"), ")")),
        ("arguments of a sort, lists", fill("(A", same("(A)"), ")")),
        ("inputs", fill("(func 64(a", same(" a"), ")a)")),
        ("many Abs", fill("(A", same("(func 64()a)"), ")")),
        ("indexes", fill("(A ", same("@(1)"), ")")),
        ("kvar arguments", fill("((x Int)($k a", same(" a"), "))")),
        ("predicates", fill("((x Int)(and", same("(a)"), "))")),
        ("kvars", fill("((x Int)(and", same("($ a)"), "))")),
        ("a bind's binders", fill("((x Int)(exists(", binders(), ")a))")),
        ("a bind's sort", fill("((x(A a", same(" a"), "))(x))")),
        ("parameters", fill("(lambda(", binders(), ")a)")),
        ("a parameter repeated", fill("(lambda(", same("(a a)"), ")a)")),
        ("a parameter's uses", fill("(lambda((a a))(and", same(" a"), "))")),
        ("a solution's arguments", fill("(lambda()((not f)a", same(" a"), "))")),
        ("a solution's joined arguments", fill("(lambda()(((((not f)a a)b b)c c)d", same(" d"), "))")),
        ("a solution's applications", fill("(lambda()(and", same("(((not f)a)b)"), "))")),
        ("arguments of the innermost head", {
            let frame = format!("(lambda(){})", nest("(", 50, "((not f)a)", " b)")).len();
            format!("(lambda(){})", nest("(", 50, &format!("((not f)a{})", " a".repeat((MAX_BYTES - frame) / 2)), " b)"))
        }),
        ("numbers", fill("(and 1", same(" 1"), ")")),
        ("the most words of a tree", fill("(", same("1(1)"), ")")),
        ("strings", fill("(and", same("\"\""), ")")),
        ("a name", "x".repeat(MAX_BYTES)),
        ("a name, one byte too long", "x".repeat(MAX_BYTES + 1)),
        ("a string", format!("\"{}\"", "(".repeat(MAX_BYTES - 2))),
        ("an index", format!("@({}1)", "0".repeat(MAX_BYTES - 4))),
        ("a width", format!("Size{}1", "0".repeat(MAX_BYTES - 5))),
        ("a number", format!("-{}1", "0".repeat(MAX_BYTES - 2))),
        ("a decimal", format!(".{}1", "0".repeat(MAX_BYTES - 2))),
        ("digits", literal(MAX_BYTES - LITERAL, 0, "1")),
        ("digits, one fewer than the size says", literal(MAX_BYTES - LITERAL, 1, "1")),
        ("digits, the last one none", literal(MAX_BYTES - LITERAL, 0, "2")),
        ("digits, one byte too long", literal(MAX_BYTES - LITERAL + 1, 0, "1")),
        ("digits of the largest value", literal(MAX_BYTES - LITERAL, 0, &"1".repeat(128))),
        ("digits of a value too large", literal(MAX_BYTES - LITERAL, 0, &"1".repeat(129))),
        ("literals", fill("(and", same("(lit\"#b1\"(a Size1))"), ")")),
        ("literals of the largest value", fill("(and", same(&format!("(lit\"#b{}\"(a Size128))", "1".repeat(128))), ")")),
        ("literals, the last one of another width", {
            let wrong = "(lit\"#b1\"(a Size2)))";
            fill("(and", same("(lit\"#b1\"(a Size1))"), wrong)
        }),
        ("space", " ".repeat(MAX_BYTES - 1) + "x"),
        ("lists side by side", "()".repeat(MAX_BYTES / 2)),
    ]
}

/// What each text is, and the text.
pub fn texts() -> Vec<(String, String)> {
    let deep = deepest().into_iter().map(|(of, text)| (format!("the deepest of {of}"), text));
    let long = longest().into_iter().map(|(of, text)| (format!("the longest of {of}"), text));
    deep.chain(long).collect()
}
