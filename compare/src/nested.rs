//! Solutions of nested lists, of exactly so many bytes, for taking the time of the text reader. All are accepted.

use crate::paper::MAX_LISTS;
use crate::random::Random;

/// Those that are measured: their bytes, and the seed of the first; the others have the next ones.
pub const BYTES: usize = 8192;
pub const SEED: u64 = 2026;

/// So many bytes have room for the parameters, and for a body.
pub const LEAST: usize = 200;

/// The parameters: a name of each length up to eight bytes, so that an atom can have any.
const NAMES: [&str; 8] = ["x", "i0", "len", "k##1", "index", "karg$0", "fix$n_2", "lq_kvar3"];
const RELATIONS: &[&str] = &["<", "<=", ">", ">=", "=", "!="];
const OPERATORS: &[&str] = &["+", "-", "*", "mod"];
const CONNECTIVES: &[&str] = &["and", "or", "=>", "<=>"];
/// The longest atom.
const ATOM: usize = 18;
/// The shortest list, as `(< x 1)`.
const LIST: usize = 7;

struct Grower<'r> {
    r: &'r mut Random,
}

impl Grower<'_> {
    /// Two parts of so many bytes together, each of at least so many.
    fn split(&mut self, bytes: usize, least: usize) -> (usize, usize) {
        let first = least + self.r.below(bytes - 2 * least + 1);
        (first, bytes - first)
    }

    /// A name or a number.
    fn atom(&mut self, bytes: usize) -> String {
        if bytes <= NAMES.len() && !self.r.one_in(3) {
            return NAMES[bytes - 1].to_string();
        }
        let minus = bytes > 1 && self.r.one_in(4);
        let digit = |i| char::from(if i == 0 { b'1' + self.r.below(9) as u8 } else { b'0' + self.r.below(10) as u8 });
        let digits: String = (0..bytes - usize::from(minus)).map(digit).collect();
        format!("{}{digits}", if minus { "-" } else { "" })
    }

    /// The innermost list that may open: a row of atoms, whose sorts nobody checks.
    fn innermost(&mut self, bytes: usize) -> String {
        let mut list = "(or ".to_string();
        while bytes - list.len() > ATOM + 1 {
            let len = 1 + self.r.below(NAMES.len());
            list.push_str(&self.atom(len));
            list.push(' ');
        }
        let last = self.atom(bytes - list.len() - 1);
        list + &last + ")"
    }

    /// A list of an operator and two parts. In every other one the first part is short, so that lists go deep.
    fn pair(&mut self, operators: &[&'static str], bytes: usize, least: usize, part: impl Fn(&mut Self, usize) -> String) -> String {
        let fitting: Vec<&str> = operators.iter().copied().filter(|o| o.len() + 4 + 2 * least <= bytes).collect();
        let operator = self.r.pick(&fitting);
        let left = bytes - operator.len() - 4;
        let (first, second) = if self.r.one_in(2) { (least, left - least) } else { self.split(left, least) };
        format!("({operator} {} {})", part(self, first), part(self, second))
    }

    /// A value inside so many lists.
    fn value(&mut self, bytes: usize, open: usize) -> String {
        if bytes < LIST || bytes <= ATOM && self.r.one_in(2) {
            return self.atom(bytes);
        }
        if open + 1 == MAX_LISTS {
            return self.innermost(bytes);
        }
        self.pair(OPERATORS, bytes, 1, |g, part| g.value(part, open + 1))
    }

    /// A claim inside so many lists.
    fn claim(&mut self, bytes: usize, open: usize) -> String {
        if open + 1 == MAX_LISTS {
            return self.innermost(bytes);
        }
        // Relations stand far inside.
        match self.r.below(if bytes > 300 { 6 } else { 8 }) {
            0..=4 if bytes >= 4 + 2 + 2 * LIST => self.pair(CONNECTIVES, bytes, LIST, |g, part| g.claim(part, open + 1)),
            5 if bytes >= "(not )".len() + LIST => format!("(not {})", self.claim(bytes - "(not )".len(), open + 1)),
            _ => self.pair(RELATIONS, bytes, 1, |g, part| g.value(part, open + 1)),
        }
    }
}

/// A solution of so many bytes, at least `LEAST`.
pub fn solution(bytes: usize, seed: u64) -> String {
    let parameters: Vec<String> = NAMES.iter().map(|name| format!("({name} Int)")).collect();
    let head = format!("(lambda ({}) ", parameters.join(" "));
    let body = Grower { r: &mut Random::new(seed) }.claim(bytes - head.len() - 1, 1);
    format!("{head}{body})")
}

/// Solutions of so many bytes to be read in turn, so many that the computer does not know them by heart.
pub fn in_turn(bytes: usize) -> Vec<String> {
    let texts = (10 * BYTES / bytes).max(4) as u64;
    (SEED..SEED + texts).map(|seed| solution(bytes, seed)).collect()
}
