//! Texts of binds.

use super::grower::Grower;

impl Grower<'_> {
    pub fn bind(&mut self, depth: usize) {
        self.open("(");
        if self.fault() {
            self.pick(&["5", "()", "\"x\"", "(x)", "true", "1.5"]);
        } else {
            self.name();
        }
        if !self.fault() {
            self.gap();
            self.sort(3);
        }
        if self.r.one_in(12) {
            self.put(" 1.5");
        }
        self.put(")");
        if !self.fault() {
            self.gap();
            self.predicate(depth);
        }
        if self.r.one_in(12) {
            self.put(" 1.5");
        }
        self.close();
    }

    fn predicate(&mut self, depth: usize) {
        if self.fault() {
            self.pick(&["x", "5", "()", "true", "nan", "($k)", "(($k x))", "($k 5)", "($k (x))", "($k x 1.5)", "(not ($k x))"]);
            return;
        }
        match self.r.below(8) {
            0..=2 if depth > 0 => {
                self.open("and");
                for _ in 0..self.some(0) {
                    self.gap();
                    self.predicate(depth - 1);
                }
                self.close();
            }
            3 | 4 => self.kvar(),
            5 => {
                self.open("");
                self.nested(depth);
                self.close();
            }
            _ => {
                let start = self.text.len();
                self.list_form(depth, 1);
                // An `and` of expressions is one predicate only inside another list.
                if self.text[start..].starts_with("(and") {
                    self.text.insert(start, '(');
                    self.close();
                }
            }
        }
    }

    fn kvar(&mut self) {
        let head = self.r.pick(&["$k", "$k0", "$", "$$", "$é", "$and"]);
        self.open(head);
        for _ in 0..self.some(1) {
            self.gap();
            self.name();
        }
        self.close();
    }
}
