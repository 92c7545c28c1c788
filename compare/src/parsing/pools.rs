//! What texts are grown from: names, and numbers round every boundary. A pool holds either only what is accepted at its place or only
//! what is refused there.

/// Names for variables: few, so that they meet their binders, and some that mean something elsewhere.
pub const NAMES: &[&str] = &["x", "y", "z", "x", "y", "z", "a", "f", "v"];
pub const ODD_NAMES: &[&str] = &[
    "and", "or", "not", "exists", "let", "lit", "if", "cast", "as", "apply", "is$", "is$Cons", "$k", "$", "-", "+", "--5", "=", "<=>", "Int", "Size3",
    "func", "lambda", "λx", "é", "\u{feff}", "𝒳", "|a", "lq_karg$x##0", "True", "infinit", "--inf", "+-nan", "inf0", "nan.", "infx", "1_0", "0x1", "@(0)", "@ x)", "@)", "a@",
];

pub const KEYWORDS: &[&str] = &[
    "exists", "let", "not", "or", "and", "lit", "if", "-", "+", "*", "/", "mod", "=", "!=", "<", "<=", ">", ">=", "<=>", "=>", "cast", "cast_as_int",
    "is$", "is$C", "as", "apply", "lambda", "$", "$k", "func", "function", "Set_Set", "Map_t", "Array_t", "BitVec", "Int", "int", "Bool", "bool",
    "Real", "real", "Str", "str", "true", "false",
];
/// Nearly keywords or theory names.
pub const NEARLY: &[&str] = &[
    "exist", "existss", "Exists", "forall", "nott", "no", "an", "andd", "==", "=<", "<>", "<==>", "is", "is_C", "iS$", "cast_as", "castx", "appl",
    "applyy", "litt", "moda", "iff", "fun", "functio", "functions", "Set_Se", "Set_Sets", "Map_", "Array_tt", "BitVe", "BitVecs", "INT", "Ints",
    "boo", "Strs", "strlen", "strLe", "strLens", "bvad", "bvaddd", "bv32_to_in",
    "int_to_bv16", "Set_me", "set_mem", "Map_sele", "arr_select", "arr_select_mm", "arr_store_",
];

pub const GOOD_SORTS: &[&str] = &[
    "Int", "int", "Bool", "bool", "Real", "real", "Str", "str", "A", "List", "x", "é", "Int8", "func", "BitVec", "Set_Set", "a@", "siZe3", "inf", "-NaN",
];
pub const BAD_SORTS: &[&str] = &["5", "-1", "1.5", "true", "\"Int\"", "()", "((Int))", "(5)", "(\"a\" Int)", "(() Int)"];

pub const SIZES: &[&str] = &[
    "Size0", "Size1", "Size2", "Size3", "Size8", "Size64", "Size128", "Size+3", "Size03", "Size+0", "Size2147483647", "Size2147483648", "Size4294967295",
    "Size000000000004294967295",
];
pub const BAD_SIZES: &[&str] = &[
    "Size", "Size+", "Size-0", "Size-1", "Sizex", "Sizes", "Size3x", "Size3.", "Size4294967296", "Size18446744073709551616", "Size++3", "Size_3",
    "Size٣",
];

/// Sorts all: some are indexes, the others names of data.
pub const INDEXES: &[&str] = &[
    "@(0)", "@(1)", "@(07)", "@(+7)", "@(4294967295)", "@(4294967296)", "@(9223372036854775808)", "@(18446744073709551615)",
    "@(000018446744073709551615)", "@(18446744073709551616)", "@(340282366920938463463374607431768211456)", "@()", "@(+)", "@(-0)", "@( 7)",
    "@(7 )", "@(7.)", "@((7)", "@)", "@7)", "@(x)", "@(1\")",
];

pub const FUNC_NUMBERS: &[&str] = &["0", "1", "2", "3", "0", "1", "2", "-0", "+1", "007", "31", "32", "33", "63", "64", "+64"];
pub const BAD_FUNC_NUMBERS: &[&str] = &[
    "65", "66", "-1", "-64", "128", "255", "256", "4294967295", "4294967296", "4294967297", "18446744073709551615", "18446744073709551616",
    "18446744073709551617", "-18446744073709551616",
    "170141183460469231731687303715884105727", "-170141183460469231731687303715884105728",
    // No integers.
    "170141183460469231731687303715884105728", "1.0", "x", "\"1\"", "true", "()",
];

pub const INTEGERS: &[&str] = &[
    "0", "1", "5", "-1", "-5", "+5", "-0", "00", "12345", "2147483647", "2147483648", "-2147483648", "4294967295", "4294967296", "4294967297",
    "-4294967296", "9223372036854775807", "9223372036854775808", "-9223372036854775808", "-9223372036854775809", "18446744073709551615",
    "18446744073709551616", "-18446744073709551616",
    "79228162514264337593543950335", "79228162514264337593543950336", "-79228162514264337593543950336",
    "170141183460469231731687303715884105727", "-170141183460469231731687303715884105727", "-170141183460469231731687303715884105728",
    "0000000000000000000000000000000000000000000000000000000000000007",
];
pub const DECIMALS: &[&str] = &[
    "1.5", ".5", "5.", "-.5", "+5.", "1e5", "1E-5", "+.5e+05", "1e999999999999999999999",
    "170141183460469231731687303715884105728", "-170141183460469231731687303715884105729",
    "340282366920938463463374607431768211455", "340282366920938463463374607431768211456",
];
pub const STRINGS: &[&str] = &["\"\"", "\"a b\"", "\"(\"", "\")\"", "\"é\"", "\"#b1\"", "\"x\""];

/// Items that refuse wherever they are read, so that they show which are read at all.
pub const JUNK: &[&str] = &[
    "1.5", "()", "(f x)", "(5)", "(5 x)", "(())", "(not)", "(lit \"#b12\" (BitVec Size2))", "(lit \"#b1\" (BitVec Size2))", "((as apply (func 65 () Int)) f)", "(\"a\" b)",
];

/// Behind `#b`.
pub const DIGITS: &[&str] = &[
    "0", "1", "01", "11", "101", "001", "0000000000000000000000000000000", "00000000000000000000000000000000", "11111111111111111111111111111111",
    "100000000000000000000000000000000",
];
pub const BAD_DIGITS: &[&str] = &[
    "", "+", "-", "-0", "-1", "+1", "+0", "+11", "1+1", "11+", "2", "12", "21", "1_0", " 1", "1 ", "1 1", "++1", "é", "é1", "1é", "𝒳1", "x", "0b1", "#b1", "٣",
    "0000000000000000000000000000000000000000000000000000000000000000002",
];
