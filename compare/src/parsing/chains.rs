//! Texts that nest exactly so many lists, one inside the other, by a mixture of forms.

use super::grower::Grower;
use super::pools::{FUNC_NUMBERS, NAMES};

/// Where in an expression the rest of the chain stands.
#[derive(Clone, Copy, PartialEq, Eq)]
pub enum Place {
    /// Lists of one element are not seen through.
    Plain,
    Nested,
    /// A list of at least two items.
    Head,
}

/// What stands before and behind the rest of a chain, how many lists it opens round the rest, and how many must be left for its own items.
type Link = (&'static str, &'static str, usize, usize);

const SORT_LINKS: &[Link] = &[
    ("(Set_Set ", ")", 1, 0),
    ("(A ", " Int)", 1, 0),
    ("(A Int ", ")", 1, 0),
    ("(Map_t ", " Int)", 1, 0),
    ("(Array_t Int ", ")", 1, 0),
    ("(function ", " Int)", 1, 0),
    ("(function Int ", ")", 1, 0),
    ("(func 1 (", ") Int)", 2, 0),
    ("(func 2 (Int ", " Int) Bool)", 2, 0),
    ("(func 0 () ", ")", 1, 1),
];

/// The rest stands where lists of one element are seen through.
const NESTED_LINKS: &[Link] = &[
    ("(not ", ")", 1, 0),
    ("(and ", ")", 1, 0),
    ("(or x ", " y)", 1, 0),
    ("(- ", ")", 1, 0),
    ("(+ ", " 1)", 1, 0),
    ("(<= x ", ")", 1, 0),
    ("(=> ", " x)", 1, 0),
    ("(<=> x ", ")", 1, 0),
    ("(if x ", " 2)", 1, 0),
    ("(if x y ", ")", 1, 0),
    ("(let (x ", ") x)", 2, 0),
    ("(let (x 1) ", ")", 1, 1),
    ("(let (y x) ", ")", 1, 1),
    ("(let (((x x))) ", ")", 1, 3),
    ("(exists () ", ")", 1, 1),
    ("(exists ((x Int)) ", ")", 1, 2),
    ("(exists ((x Int) (y Bool)) ", ")", 1, 2),
    ("((not f) ", " x)", 1, 1),
    ("((as apply Int) ", ")", 1, 1),
    ("((let (x f) x) ", " x)", 1, 2),
];

const PLAIN_LINKS: &[Link] = &[("(cast ", ")", 1, 0), ("(cast_as_int ", ")", 1, 0), ("(is$Cons ", ")", 1, 0)];
const HEAD_LINKS: &[Link] = &[("(", ")", 1, 0), ("(", " x)", 1, 0), ("(", " x 1)", 1, 0)];

impl Grower<'_> {
    /// One that leaves enough lists for its own items, and is no let in a plain text.
    fn link(&mut self, links: &[Link], lists: usize) -> Link {
        let fits = |(before, _, opens, own): &Link| opens + own <= lists && !(self.plain && before.contains("(let "));
        let fitting: Vec<Link> = links.iter().copied().filter(fits).collect();
        self.r.pick(&fitting)
    }

    pub fn sort_chain(&mut self, lists: usize) {
        if lists == 0 {
            return self.pick(&["Int", "Size3", "@(0)", "A"]);
        }
        let (before, behind, opens, _) = self.link(SORT_LINKS, lists);
        self.put(before);
        self.sort_chain(lists - opens);
        self.put(behind);
    }

    pub fn expr_chain(&mut self, lists: usize, place: Place) {
        if lists == 0 {
            return self.pick(NAMES);
        }
        let (links, rest) = match self.r.below(10) {
            0 if place == Place::Nested => (&[("(", ")", 1, 0)][..], Place::Nested),
            1 => (PLAIN_LINKS, Place::Plain),
            // A list of one item is no head.
            2 | 3 if lists > 1 => (&HEAD_LINKS[(place == Place::Head) as usize..], Place::Head),
            _ => (NESTED_LINKS, Place::Nested),
        };
        let (before, behind, opens, _) = self.link(links, lists);
        self.put(before);
        self.expr_chain(lists - opens, rest);
        self.put(behind);
    }

    /// `and` down to an expression, a kvar, or a chain in the bind's sort. Takes at least three lists.
    pub fn bind_chain(&mut self, lists: usize) {
        if self.r.one_in(4) {
            self.put("((x ");
            self.sort_chain(lists - 2);
            return self.put(") ($k x))");
        }
        let ands = self.r.below(lists - 1);
        self.put("((x Int) ");
        (0..ands).for_each(|_| self.pick(&["(and ", "(and ($k x) ", "(and (x) "]));
        if ands + 2 == lists {
            self.put("($k x y)");
        } else {
            // Not `and`, which would be taken for more predicates.
            self.put("(not ");
            self.expr_chain(lists - ands - 2, Place::Nested);
            self.put(")");
        }
        (0..ands).for_each(|_| self.put(")"));
        self.put(")");
    }

    /// Sorts that need many words for few bytes.
    pub fn wordy_sort(&mut self) {
        self.put("(A");
        for _ in 0..1 + self.r.below(6) {
            self.put(" (func ");
            self.pick(FUNC_NUMBERS);
            self.put(" () a)");
        }
        self.put(")");
    }
}
