//! Texts of expressions.

use super::grower::Grower;
use super::pools::*;
use crate::letters;
use crate::paper::theory;

/// Forms with a fixed number of operands.
const FORMS: &[(&str, usize)] = &[
    ("not", 1), ("-", 1), ("-", 2), ("+", 2), ("*", 2), ("/", 2), ("mod", 2), ("=", 2), ("!=", 2), ("<", 2), ("<=", 2), (">", 2), (">=", 2),
    ("=>", 2), ("<=>", 2), ("if", 3),
];

const BAD_BINDERS: &[&str] = &[
    "x", "(x)", "(x Int Int)", "(5 Int)", "(\"x\" Int)", "(1.5 Int)", "((x) Int)", "()", "(x 5)", "((x Int))", "(x Int)(x Int)",
];

impl Grower<'_> {
    pub fn name(&mut self) {
        if self.r.one_in(12) {
            let pool = self.r.pick(&[ODD_NAMES, NEARLY]);
            self.pick(pool);
        } else if self.r.one_in(24) {
            let word = letters::spelled(self.r);
            self.put(&word);
        } else if self.r.one_in(10) {
            self.theory_name();
        } else {
            self.pick(NAMES);
        }
    }

    fn theory_name(&mut self) {
        let n = self.r.below(theory::names().count());
        self.put(theory::names().nth(n).unwrap());
    }

    fn atom(&mut self) {
        match self.r.below(16) {
            0..=2 => self.pick(INTEGERS),
            3 => self.pick(STRINGS),
            4 => self.pick(&["true", "false"]),
            5 => self.theory_name(),
            6..=9 => self.used_name(),
            _ => self.name(),
        }
    }

    /// A name that is bound here, or any.
    fn used_name(&mut self) {
        match self.bound_name() {
            Some(name) => self.put(&name),
            None => self.name(),
        }
    }

    /// An expression where lists of one element are not seen through.
    pub fn root(&mut self, depth: usize) {
        if self.fault() {
            self.wrong();
        } else if self.may_nest(depth) {
            self.list_form(depth - 1, 0);
        } else {
            self.atom();
        }
    }

    /// An expression where they are.
    pub fn nested(&mut self, depth: usize) {
        let lists = if self.r.one_in(8) { 1 + self.r.below(3) } else { 0 };
        (0..lists).for_each(|_| self.put("("));
        self.root(depth);
        (0..lists).for_each(|_| self.put(")"));
    }

    fn wrong(&mut self) {
        let pool = self.r.pick(&[JUNK, DECIMALS]);
        self.pick(pool);
    }

    /// A list of at least `least` items behind its head.
    pub fn list_form(&mut self, depth: usize, least: usize) {
        match self.r.below(27) {
            0..=6 => {
                let (head, n) = self.r.pick(FORMS);
                self.form(head, n, depth);
            }
            7..=9 => {
                let (head, n) = (self.r.pick(&["and", "or"]), self.some(least));
                self.open(head);
                self.operands(n, depth);
                self.close();
            }
            10 => self.unseen(depth),
            11..=13 if !self.plain => self.let_in(depth),
            24..=26 if !self.plain => self.lit(),
            11..=16 => self.exists(depth),
            17..=19 => self.apply(depth),
            20 => self.curried(depth),
            _ => self.application(depth),
        }
    }

    pub fn operands(&mut self, n: usize, depth: usize) {
        for _ in 0..n {
            self.gap();
            self.nested(depth);
        }
    }

    /// One operand too few by a fault; one too many refuses nothing.
    fn form(&mut self, head: &str, n: usize, depth: usize) {
        let n = if self.fault() { n - 1 } else { n };
        self.open(head);
        self.operands(n, depth);
        if head != "-" {
            self.surplus();
        }
        self.close();
    }

    /// An item that is never read.
    pub fn surplus(&mut self) {
        if self.r.one_in(12) {
            self.gap();
            self.wrong();
        }
    }

    fn unseen(&mut self, depth: usize) {
        let head = self.r.pick(&["cast", "cast_as_int", "is$Cons", "is$", "is$é", "is$is$"]);
        self.open(head);
        if !self.fault() {
            self.gap();
            self.root(depth);
        }
        self.surplus();
        self.close();
    }

    fn let_in(&mut self, depth: usize) {
        self.open("let");
        self.gap();
        let lists = 1 + if self.r.one_in(6) { 1 + self.r.below(2) } else { 0 };
        (0..lists).for_each(|_| self.put("("));
        let start = self.text.len();
        if self.fault() {
            self.wrong();
        } else if self.r.one_in(3) {
            // A name again.
            self.used_name();
        } else {
            self.name();
        }
        let name = self.text[start..].to_string();
        if !self.fault() {
            self.gap();
            self.nested(depth);
            self.surplus();
        }
        (0..lists).for_each(|_| self.put(")"));
        if !self.fault() {
            self.gap();
            self.within(vec![name], |g| g.nested(depth));
            self.surplus();
        }
        self.close();
    }

    fn exists(&mut self, depth: usize) {
        self.open("exists");
        self.gap();
        self.put("(");
        let names = self.binders();
        self.put(")");
        if !self.fault() {
            self.gap();
            self.within(names, |g| g.nested(depth));
        }
        if self.fault() {
            self.put(" x");
        }
        self.close();
    }

    /// Some binders; no name is repeated in a good text. The names that they bind.
    pub fn binders(&mut self) -> Vec<String> {
        let mut names: Vec<String> = Vec::new();
        for _ in 0..self.some(0) {
            let start = self.text.len();
            self.put("(");
            match names.first() {
                Some(name) if self.past_limits() => self.put(name),
                _ => self.name(),
            }
            let name = self.text[start + 1..].to_string();
            if names.contains(&name) && !self.past_limits() {
                self.text.truncate(start);
                continue;
            }
            names.push(name);
            self.gap();
            self.sort(2);
            self.put(")");
            if self.fault() {
                self.text.truncate(start);
                self.pick(BAD_BINDERS);
            }
        }
        names
    }

    fn apply(&mut self, depth: usize) {
        self.open("(");
        self.pick(&["as", "as", "as", "5", "nan", "1.5", "()", "\"as\"", "(x)"]);
        self.put(" apply");
        if !self.fault() {
            self.gap();
            self.sort(3);
            self.surplus();
        }
        self.put(")");
        if !self.fault() {
            self.gap();
            self.nested(depth);
            self.surplus();
        }
        self.close();
    }

    /// The head is a list of at least two items.
    fn application(&mut self, depth: usize) {
        self.open("");
        if self.fault() {
            self.pick(&["f", "5", "()", "(f)", "(f g)", "bvadd", "\"f\"", "((and x))", "(not apply)"]);
        } else {
            self.list_form(depth.saturating_sub(1), 1);
        }
        let n = self.some(0);
        self.operands(n, depth);
        self.close();
    }
}
