//! The theory functions: 42, spelled by 44 names, numbered in the order of the source's `parse_thy_func`.

const NAMES: [&str; 42] = [
    "strLen",
    "int_to_bv8", "bv8_to_int", "int_to_bv32", "bv32_to_int", "int_to_bv64", "bv64_to_int", "int_to_bv128", "bv128_to_int",
    "bvule", "bvsle", "bvuge", "bvsge", "bvugt", "bvsgt", "bvult", "bvslt",
    "bvudiv", "bvsdiv", "bvurem", "bvsrem", "bvlshr", "bvashr", "bvand", "bvor", "bvxor", "bvnot", "bvadd", "bvneg", "bvsub", "bvmul", "bvshl",
    "Set_empty", "Set_sng", "Set_cup", "Set_cap", "Set_dif", "Set_mem", "Set_sub",
    "Map_default", "Map_select", "Map_store",
];

const ALIASES: [(&str, &str); 2] = [("arr_select_m", "Map_select"), ("arr_store_m", "Map_store")];

/// The function of a name, by number.
pub fn function(name: &str) -> Option<u32> {
    let name = ALIASES.iter().find(|(alias, _)| *alias == name).map_or(name, |(_, of)| of);
    NAMES.iter().position(|n| *n == name).map(|i| i as u32)
}

/// All 44 names.
pub fn names() -> impl Iterator<Item = &'static str> {
    NAMES.into_iter().chain(ALIASES.into_iter().map(|(alias, _)| alias))
}

/// The name of a bit-vector function, by its number; SMT-LIB has the same.
pub fn bit_vector(function: u32) -> Option<&'static str> {
    NAMES.get(function as usize).copied().filter(|_| (9..=31).contains(&function))
}
