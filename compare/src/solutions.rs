//! Solutions as a solver prints them, for taking times. All are accepted.

use crate::random::Random;

/// The sorts of variables, and what is applied.
pub struct Pools {
    sorts: [&'static str; 10],
    heads: [&'static str; 11],
}

/// As a solver prints them.
pub const SOLVED: Pools = Pools {
    sorts: ["Int", "Int", "Int", "Bool", "Str", "(BitVec Size32)", "(Set_Set Int)", "(Map_t Int Int)", "(Vec @(0))", "(Adt0 Int)"],
    heads: ["len", "fld0$0", "c0", "size_of", "Set_mem", "Map_select", "arr_select_m", "bvand", "bvule", "strLen", "bv32_to_int"],
};
/// The same, but for what SMT-LIB has no form for: other names stand in its place.
pub const WRITABLE: Pools = Pools {
    sorts: ["Int", "Int", "Int", "Bool", "Str", "(BitVec Size32)", "(Set.Set Int)", "(Map_t Int Int)", "(Vec Data)", "(Adt0 Int)"],
    heads: ["len", "fld0$0", "c0", "size_of", "Set.mem", "Map.select", "arr.select_m", "bvand", "bvule", "str.Len", "bv32.to_int"],
};
const APPLIED: &[&str] = &["Int", "Bool", "(func 0 (Int) Int)", "(Set_Set Int)"];
const RELATIONS: &[&str] = &["<", "<=", ">", ">=", "=", "=", "!="];
const OPERATORS: &[&str] = &["+", "-", "+", "-", "*", "mod", "/"];
const LITERALS: &[&str] = &["(lit \"#b00000000000000000000000000000101\" (BitVec Size32))", "\"\"", "\"a name\"", "true", "false"];

struct Grower<'r> {
    r: &'r mut Random,
    pools: &'r Pools,
    /// The names in scope.
    names: Vec<String>,
}

impl Grower<'_> {
    fn name(&mut self) -> String {
        self.names[self.r.below(self.names.len())].clone()
    }

    fn number(&mut self) -> String {
        let n = match self.r.below(8) {
            0..=4 => self.r.below(10) as u64,
            5 | 6 => self.r.below(5000) as u64,
            _ => self.r.pick(&[4_294_967_295, 9_223_372_036_854_775_807, u64::MAX]),
        };
        format!("{}{n}", if self.r.one_in(8) { "-" } else { "" })
    }

    fn value(&mut self, depth: usize) -> String {
        match self.r.below(if depth == 0 { 10 } else { 20 }) {
            0..=5 => self.name(),
            6..=8 => self.number(),
            9 => self.r.pick(LITERALS).to_string(),
            10..=15 => format!("({} {} {})", self.r.pick(OPERATORS), self.value(depth - 1), self.value(depth - 1)),
            16 => format!("(if {} {} {})", self.claim(depth - 1), self.value(depth - 1), self.value(depth - 1)),
            _ => self.application(depth - 1),
        }
    }

    /// An argument at a time, each with the sort of what is applied.
    fn application(&mut self, depth: usize) -> String {
        let mut applied = self.r.pick(&self.pools.heads).to_string();
        for _ in 0..1 + self.r.below(2) {
            applied = format!("(((as apply {}) {applied}) {})", self.r.pick(APPLIED), self.value(depth));
        }
        applied
    }

    fn claim(&mut self, depth: usize) -> String {
        match self.r.below(if depth == 0 { 12 } else { 20 }) {
            0..=11 => format!("({} {} {})", self.r.pick(RELATIONS), self.value(depth), self.value(depth)),
            12 => format!("(not {})", self.claim(depth - 1)),
            13 => format!("({} {} {})", self.r.pick(&["=>", "<=>"]), self.claim(depth - 1), self.claim(depth - 1)),
            14 | 15 => format!("({} {} {})", self.r.pick(&["and", "or"]), self.claim(depth - 1), self.claim(depth - 1)),
            16 => self.application(depth - 1),
            17 => format!("(is$Cons {})", self.application(depth - 1)),
            18 => self.let_in(depth - 1),
            _ => self.exists(depth - 1),
        }
    }

    fn let_in(&mut self, depth: usize) -> String {
        let (name, binding) = (format!("v{depth}"), self.value(depth));
        self.names.push(name.clone());
        let body = self.claim(depth);
        self.names.pop();
        format!("(let ({name} {binding}) {body})")
    }

    fn exists(&mut self, depth: usize) -> String {
        let before = self.names.len();
        let binders: Vec<String> = (0..1 + self.r.below(2)).map(|i| format!("fix$n{before}_{i}")).collect();
        let sorted: Vec<String> = binders.iter().map(|b| format!("({b} {})", self.r.pick(&self.pools.sorts))).collect();
        self.names.extend(binders);
        let body = format!("(exists ({}) (and {} {}))", sorted.join(" "), self.claim(depth), self.claim(depth));
        self.names.truncate(before);
        body
    }
}

/// A conjunction under parameters, of at most so many bytes and not many fewer.
pub fn text(bytes: usize, pools: &Pools, r: &mut Random) -> String {
    let parameters = match bytes {
        0..=300 => 2 + r.below(2),
        301..=4000 => 4 + r.below(5),
        _ => 8 + r.below(9),
    };
    let names: Vec<String> = (0..parameters).map(|i| format!("lq_karg$k{}##{i}", r.below(100))).collect();
    let sorted: Vec<String> = names.iter().map(|n| format!("({n} {})", r.pick(&pools.sorts))).collect();
    let mut text = format!("(lambda ({}) (and", sorted.join(" "));
    let mut g = Grower { r, pools, names };
    let mut missed = 0;
    while missed < 20 {
        let depth = g.r.below(4);
        let claim = g.claim(depth);
        if text.len() + claim.len() + " ))".len() > bytes {
            missed += 1;
            continue;
        }
        text.push(' ');
        text.push_str(&claim);
    }
    text + "))"
}
