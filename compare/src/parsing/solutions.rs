//! Texts of solutions, and chains of applications for flattening to join.

use super::chains::Place;
use super::grower::Grower;

impl Grower<'_> {
    pub fn solution(&mut self, depth: usize) {
        if self.fault() {
            self.pick(&["x", "()", "5", "(lambda)", "(lambda ())", "(lambda x x)", "(lambda () x x)", "(() x)", "(lambda ((x Int) x) 1.5)"]);
            return;
        }
        self.put("(");
        self.pick(&["lambda", "lambda", "lambda", "λ", "nan", "1.5", "()", "5", "\"\"", "(f x)"]);
        self.gap();
        self.put("(");
        let names = self.binders();
        self.put(")");
        self.gap();
        self.within(names, |g| if g.r.one_in(3) { g.curried(depth) } else { g.root(depth) });
        self.close();
    }

    /// An application of an application, and so on down to a head of any form.
    pub fn curried(&mut self, depth: usize) {
        let links = 1 + if self.r.one_in(6) { self.r.below(30) } else { self.r.below(5) };
        let mut behind = Vec::new();
        // Below an application without a sort the head is a list of at least two items.
        let mut least = 0;
        for _ in 0..links {
            let lists = if least == 0 && !behind.is_empty() && self.r.one_in(8) { 1 } else { 0 };
            (0..lists).for_each(|_| self.put("("));
            self.open("");
            if self.r.one_in(3) {
                self.put("(as apply ");
                self.sort(2);
                self.put(") ");
                behind.push((0, lists));
                least = 0;
            } else {
                behind.push((least + self.r.below(3), lists));
                least = 1;
            }
        }
        self.list_form(depth.saturating_sub(1), 1);
        for (operands, lists) in behind.into_iter().rev() {
            self.operands(operands, depth.saturating_sub(2));
            (0..=lists).for_each(|_| self.close());
        }
    }

    /// A chain in the body, or in a parameter's sort. Takes at least four lists.
    pub fn solution_chain(&mut self, lists: usize) {
        self.put("(lambda (");
        if self.r.one_in(4) {
            self.put("(y ");
            self.sort_chain(lists - 3);
            return self.put(")) (not y))");
        }
        self.pick(&["", "(x Int)", "(x Int) (y Bool)"]);
        self.put(") ");
        self.expr_chain(lists - 1, Place::Plain);
        self.put(")");
    }
}
