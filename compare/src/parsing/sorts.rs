//! Texts of sorts.

use super::grower::Grower;
use super::pools::*;

impl Grower<'_> {
    pub fn sort(&mut self, depth: usize) {
        if self.fault() {
            let pool = self.r.pick(&[BAD_SORTS, BAD_SIZES]);
            self.pick(pool);
        } else if self.may_nest(depth) {
            self.list_sort(depth - 1);
        } else {
            let pool = self.r.pick(&[GOOD_SORTS, GOOD_SORTS, GOOD_SORTS, SIZES, INDEXES]);
            self.pick(pool);
        }
    }

    fn list_sort(&mut self, depth: usize) {
        match self.r.below(12) {
            0 | 1 => self.sorts_behind("Set_Set", 1, depth),
            2 => self.sorts_behind("Map_t", 2, depth),
            3 => self.sorts_behind("Array_t", 2, depth),
            4 => self.sorts_behind("function", 2, depth),
            5 => self.bitvec(),
            6..=8 => self.func(depth),
            _ => {
                let n = self.some(0);
                let head = self.r.pick(&["A", "List", "Set_Set", "Map_t", "function", "Int", "Size3", "@(0)", "é", "Pair", "func"]);
                self.sorts_behind(head, n, depth);
            }
        }
    }

    /// A wrong number of arguments makes another sort, and is no fault.
    fn sorts_behind(&mut self, head: &str, n: usize, depth: usize) {
        let n = if self.r.one_in(12) { self.r.below(4) } else { n };
        self.open(head);
        for _ in 0..n {
            self.gap();
            self.sort(depth);
        }
        self.close();
    }

    pub fn bitvec(&mut self) {
        self.open("BitVec");
        self.gap();
        if self.fault() {
            self.sort(1);
        } else {
            self.pick_or(SIZES, BAD_SIZES);
        }
        self.close();
    }

    fn func(&mut self, depth: usize) {
        self.open("func");
        if !self.fault() {
            self.gap();
            self.pick_or(FUNC_NUMBERS, BAD_FUNC_NUMBERS);
        }
        self.gap();
        if self.fault() {
            self.sort(depth);
        } else {
            self.open("");
            for i in 0..self.some(0) {
                if i > 0 {
                    self.gap();
                }
                self.sort(depth);
            }
            self.close();
        }
        self.gap();
        self.sort(depth);
        if self.fault() {
            self.put(" Int");
        }
        self.close();
    }
}
