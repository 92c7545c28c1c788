//! Every keyword, theory name and boundary value in every place where one may stand.

use super::pools::*;
use crate::letters;
use crate::paper::theory;

/// The word stands for each `~`, how many bytes it has for `{n}`, and one more for `{m}`.
const FRAMES: &[&str] = &[
    "~",
    "(~)",
    "(~ x)",
    "(~ x y)",
    "(~ x y z)",
    "(~ (x Int) x)",
    "(~ ((x Int)) x)",
    "(not ~)",
    "(not (~))",
    "(cast ~)",
    "(if x y ~)",
    "(x ~)",
    "(and ~ (exists ((~ Int)) ~))",
    "(exists ((x ~)) x)",
    "(exists ((~ Int) (y Bool)) (exists ((y ~)) (+ ~ y)))",
    "(let (~ 1) x)",
    "(let (x ~) ~)",
    "(let (~ 1) ~)",
    "(let (~ ~) (~ ~))",
    "(let ((~ 1)) (not (~)))",
    "(let (~ 1) (let (~ ~) (and ~ x)))",
    "(let (~ 1) (is$~ ~))",
    "(exists ((~ Int)) (let (~ ~) (and ~ x)))",
    "(let (~ x) (exists ((~ Int)) (and ~ x)))",
    "((let (~ f) ~) (let (~ 1) ~) ~)",
    "(((as apply Int) (let (~ f) ~)) ~)",
    "((as apply ~) f)",
    "((~ apply Int) f)",
    "((as ~ Int) f)",
    "((not ~) ~)",
    "(is$~ x)",
    "(lit \"#b1~\" (BitVec Size{m}))",
    "(lit \"#b~1\" (BitVec Size{m}))",
    "(lit \"#b1~\" (BitVec Size{n}))",
    "(lit \"#b~\" (BitVec Size{n}))",
    "(lit \"#b~\" (BitVec Size{m}))",
    "(lit \"#b~\" (5 Size+0{n}))",
    "(lit \"#b~\" (BitVec Size1{n}))",
    "(lit \"#b~\" (BitVec Size3))",
    "(lit \"#b~\")",
    "(lit \"~\" (BitVec Size3))",
    "(lit ~ (BitVec Size3))",
    "(lit \"#b111\" (BitVec ~))",
    "(lit \"#b11\" (~ Size2))",
    "(lit \"#b11\" (~ Size3))",
    "(lit \"#b11\" ~)",
    "(func ~ (Int) Bool)",
    "(func 1 (~) ~)",
    "(func 1 ~ Bool)",
    "(~ 1 (Int) Bool)",
    "(BitVec ~)",
    "(Map_t ~ Int)",
    "(A ~)",
    "((~ Int) ($k x))",
    "((x ~) ($k x))",
    "((x Int) ~)",
    "((x Int) (~))",
    "((x Int) (~ x))",
    "((x Int) (~ x y))",
    "((x Int) (lit \"#b~\" (BitVec Size{n})))",
    "((x Int) ($k ~))",
    "((x Int) (and ($k x) (~ ($k y))))",
    "((x Int) (exists ((y ~)) (= x y)))",
    "((x Int) (let (~ x) (= ~ x)))",
    "((~ Int) (and ($k ~) (let (~ ~) (= ~ x))))",
    "(~ () x)",
    "(lambda ~ x)",
    "(lambda (~) x)",
    "(lambda () ~)",
    "(lambda () (lit \"#b~\" (BitVec Size{n})))",
    "(lambda () (~ x))",
    "(lambda ((~ Int)) (not ~))",
    "(lambda ((~ Int)) (let (~ ~) (< ~ x)))",
    "(lambda ((x Int)) (and (let (~ x) ~) ~))",
    "(lambda ((x ~)) x)",
    "(lambda ((x Int)) (((as apply ~) (~ x y)) ~))",
];

/// Digits up to the most that a value can need, past it, and with zeros before them.
fn long_digits() -> impl Iterator<Item = String> {
    let ones = [31, 32, 33, 63, 64, 65, 127, 128, 129].map(|n| "1".repeat(n));
    let powers = [127, 128].map(|n| format!("1{}", "0".repeat(n)));
    let zeros = [127, 128, 129, 300].map(|n| format!("{}1", "0".repeat(n)));
    let most = [1, 172].map(|n| "0".repeat(n) + &"1".repeat(128));
    ones.into_iter().chain(powers).chain(zeros).chain(most)
}

pub fn texts(each: &mut dyn FnMut(&[u8])) {
    let pools = [
        KEYWORDS, NEARLY, NAMES, ODD_NAMES, GOOD_SORTS, BAD_SORTS, SIZES, BAD_SIZES, INDEXES, FUNC_NUMBERS, BAD_FUNC_NUMBERS, INTEGERS, DECIMALS,
        STRINGS, JUNK, DIGITS, BAD_DIGITS,
    ];
    let words = pools.concat().into_iter().chain(theory::names()).map(str::to_string).chain(letters::all()).chain(long_digits());
    for word in words {
        let [n, m] = [word.len(), word.len() + 1].map(|n| n.to_string());
        FRAMES.iter().for_each(|frame| each(frame.replace("{n}", &n).replace("{m}", &m).replace('~', &word).as_bytes()));
    }
}
