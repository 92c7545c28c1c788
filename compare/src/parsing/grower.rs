//! Grows a text item by item, good by intent or with faults strewn in.

use crate::random::Random;

pub struct Grower<'r> {
    pub r: &'r mut Random,
    pub text: String,
    /// How many more lists may be grown; then come atoms only.
    room: usize,
    /// At one in so many places something is wrong; at none if there is no number.
    faults: Option<usize>,
    /// Whether there is no literal and no let, by intent, so that the source has an answer to the text.
    pub plain: bool,
    /// The names that are bound where the text grows, innermost last.
    bound: Vec<String>,
}

impl<'r> Grower<'r> {
    pub fn new(r: &'r mut Random, faults: Option<usize>) -> Self {
        let (room, plain) = (1 + r.below(30), r.one_in(3));
        Grower { r, text: String::new(), room, faults, plain, bound: Vec::new() }
    }

    /// Grows where these names are bound besides.
    pub fn within(&mut self, names: Vec<String>, grow: impl FnOnce(&mut Self)) {
        let before = self.bound.len();
        self.bound.extend(names);
        grow(self);
        self.bound.truncate(before);
    }

    /// A name that is bound here, if there is one; mostly the innermost.
    pub fn bound_name(&mut self) -> Option<String> {
        let last = self.bound.len().checked_sub(1)?;
        let at = if self.r.one_in(2) { last } else { self.r.below(last + 1) };
        Some(self.bound[at].clone())
    }

    /// Whether to do something wrong here.
    pub fn fault(&mut self) -> bool {
        self.faults.is_some_and(|n| self.r.one_in(n))
    }

    /// Whether to take a value past its limits: these faults refuse by numbers of their own, and are strewn thicker.
    pub fn past_limits(&mut self) -> bool {
        self.faults.is_some_and(|n| self.r.one_in(2 + n / 8))
    }

    pub fn put(&mut self, part: &str) {
        self.text.push_str(part);
    }

    pub fn pick(&mut self, pool: &[&str]) {
        self.text.push_str(self.r.pick(pool));
    }

    /// From the first pool, or past the limits from the second.
    pub fn pick_or(&mut self, good: &[&str], bad: &[&str]) {
        let pool = if self.past_limits() { bad } else { good };
        self.pick(pool);
    }

    pub fn gap(&mut self) {
        if self.r.one_in(40) {
            self.pick(&["\n", "\t", "  ", "\r\n", "\u{a0}", "\u{85}", "\u{2003}", "\u{3000}"]);
        } else {
            self.put(" ");
        }
    }

    pub fn open(&mut self, head: &str) {
        self.put("(");
        self.put(head);
        self.room = self.room.saturating_sub(1);
    }

    pub fn close(&mut self) {
        self.put(")");
    }

    /// Whether a list may be grown here.
    pub fn may_nest(&mut self, depth: usize) -> bool {
        depth > 0 && self.room > 0 && !self.r.one_in(4)
    }

    /// How many items a list of any length has.
    pub fn some(&mut self, least: usize) -> usize {
        least + if self.r.one_in(30) { self.r.below(20) } else { self.r.below(4) }
    }
}
