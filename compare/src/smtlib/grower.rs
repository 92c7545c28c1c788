//! Grows the words of solutions and the text that their spans lie in: writable by intent, or with faults strewn in.

use crate::flattening::any_word;
use crate::paper::MAX_NODES;
use crate::random::Random;

/// Bytes that names and strings may have, at the ends of their range and where SMT-LIB gives them a meaning; letters come besides.
const PLAIN: &[u8] = b" !#$%&'()*+,-./019:;<=>?@[]^_`{}~nvs";
/// Bytes that they may not have, and the first ones outside the range.
const ODD: &[u8] = &[0, 9, 10, 31, b'"', b'\\', b'|', 127, 128, 0xc3, 255];
const WIDTHS: &[u32] = &[1, 2, 3, 8, 31, 32, 33, 63, 64, 65, 96, 127, 128, 129, 160, 1 << 31, u32::MAX];
/// Leaves and nodes that may stand anywhere.
const LEAVES: &[u32] = &[32, 33, 34, 35, 36, 37, 37];
const NODES: &[u32] = &[38, 38, 38, 39, 40, 41, 42, 42, 43, 43, 44, 45, 46, 47, 47, 48, 50, 51, 51];
/// The same with lets of numbers.
const ALL_NODES: &[u32] = &[38, 38, 38, 39, 40, 41, 42, 42, 43, 43, 44, 45, 46, 47, 47, 48, 50, 51, 51, 52, 52];

/// Words, and the text that is lent with them.
pub type Lent = (Vec<u32>, Vec<u8>);

pub fn solution(faults: Option<usize>, r: &mut Random) -> Lent {
    let mut g = Grower::new(r, faults);
    g.binders();
    let depth = g.r.below(8);
    g.expr(depth);
    (g.words, g.text)
}

/// A solution's node inside so many others, mostly round the limit, and sometimes no good one.
pub fn chain(faults: Option<usize>, r: &mut Random) -> Lent {
    let mut g = Grower::new(r, faults);
    let inside = if g.r.one_in(4) { g.r.below(MAX_NODES) } else { MAX_NODES - 4 + g.r.below(7) };
    g.binders();
    let behind: Vec<_> = (0..inside).map(|_| g.link()).collect();
    match g.r.below(16) {
        0 => {}
        1 => g.put(&[31]),
        2 => g.put(&[53]),
        3 => g.put(&[33, 2]),
        4 => g.put(&[37, g.text.len() as u32, 1]),
        5 => g.put(&[49, 9]),
        6 => g.put(&[42, u32::MAX, 33, 0]),
        _ => g.leaf(),
    }
    behind.into_iter().rev().for_each(|b| g.put(&b));
    (g.words, g.text)
}

/// A text alone.
pub fn text(faults: Option<usize>, r: &mut Random) -> Vec<u8> {
    Grower::new(r, faults).text
}

struct Grower<'r> {
    r: &'r mut Random,
    words: Vec<u32>,
    text: Vec<u8>,
    /// How many more nodes may have children; then come leaves only.
    room: usize,
    /// At one in so many places something is wrong; at none if there is no number.
    faults: Option<usize>,
    /// Whether there is no let of a number, by intent, so that archives from before such a let have an answer to the words, too.
    plain: bool,
}

impl<'r> Grower<'r> {
    fn new(r: &'r mut Random, faults: Option<usize>) -> Self {
        let (room, plain) = (1 + r.below(30), r.one_in(3));
        let mut g = Grower { r, words: Vec::new(), text: Vec::new(), room, faults, plain };
        let most = if g.r.one_in(40) { 400 } else { 30 };
        let bytes = g.r.below(most);
        g.text = (0..bytes).map(|_| g.byte()).collect();
        g
    }

    fn byte(&mut self) -> u8 {
        if self.fault() {
            return self.r.pick(ODD);
        }
        if self.r.one_in(4) { self.r.pick(PLAIN) } else { b'a' + self.r.below(26) as u8 }
    }

    fn fault(&mut self) -> bool {
        self.faults.is_some_and(|n| self.r.one_in(n))
    }

    fn put(&mut self, words: &[u32]) {
        self.words.extend_from_slice(words);
    }

    /// How many of what may be of any number, none, one and two among them.
    fn some(&mut self) -> usize {
        if self.r.one_in(30) { self.r.below(20) } else { self.r.below(4) }
    }

    /// Mostly a part of the text; its first byte and its end may be the text's.
    fn span(&mut self) {
        let len = self.text.len();
        let (start, bytes) = if self.fault() {
            let outside = [(len, 1), (len + 1, 0), (0, len + 1), (1, u32::MAX as usize), (u32::MAX as usize, 1), (u32::MAX as usize, u32::MAX as usize)];
            self.r.pick(&outside)
        } else {
            let start = self.r.below(len + 1);
            let most = if self.r.one_in(20) { len } else { 8 };
            (start, self.r.below(most.min(len - start) + 1))
        };
        self.put(&[start as u32, bytes as u32]);
    }

    fn number(&mut self) {
        let low = any_word(self.r);
        let high = if self.r.one_in(4) { any_word(self.r) } else { 0 };
        self.put(&[low, high]);
    }

    fn wide(&mut self, n: u128) {
        self.words.extend((0..4).map(|i| (n >> (32 * i)) as u32));
    }

    /// Any number of so many bits.
    fn bits(&mut self, bits: u32) -> u128 {
        let random = (0..3).fold(0, |n, _| n << 48 | u128::from(self.r.next()));
        if bits == 0 { 0 } else { random >> (128 - bits) }
    }

    /// Of any length in bits and in decimal digits, and round the powers of ten.
    fn numeral(&mut self) {
        let bits = self.r.below(129) as u32;
        let n = match self.r.below(4) {
            0 => u128::from(any_word(self.r)),
            1 => 10u128.pow(self.r.below(39) as u32) - self.r.below(2) as u128,
            _ => self.bits(bits),
        };
        self.put(&[32]);
        self.wide(n);
    }

    /// A value below 2^width; a fault is a width of 0 or a larger value.
    fn bit_vector(&mut self) {
        let width = self.r.pick(WIDTHS);
        let most = if width < 128 { (1u128 << width) - 1 } else { u128::MAX };
        let (value, width) = match self.r.below(3) {
            _ if self.fault() => match self.r.below(3) {
                0 => (self.bits(8), 0),
                1 => (most.wrapping_add(1), width),
                _ => (self.bits(128), width),
            },
            0 => (most, width),
            _ => (self.bits(128) & most, width),
        };
        self.put(&[35]);
        self.wide(value);
        self.put(&[width]);
    }

    fn sort(&mut self, depth: usize) {
        if self.fault() {
            return self.odd_sort(depth);
        }
        match self.r.below(if depth == 0 { 6 } else { 9 }) {
            4 => {
                let width = self.r.pick(WIDTHS);
                self.put(&[5, 6, width]);
            }
            5 => self.data(0, 0),
            6 => {
                self.put(&[10, 1, 2]);
                self.sorts(2, depth - 1);
            }
            7 | 8 => {
                let n = self.some();
                self.data(n, depth - 1);
            }
            plain => self.put(&[1 + plain as u32]),
        }
    }

    fn sorts(&mut self, n: usize, depth: usize) {
        (0..n).for_each(|_| self.sort(depth));
    }

    fn data(&mut self, n: usize, depth: usize) {
        self.put(&[10, 2]);
        self.span();
        self.put(&[n as u32]);
        self.sorts(n, depth);
    }

    /// A sort that cannot be written.
    fn odd_sort(&mut self, depth: usize) {
        let below = depth.saturating_sub(1);
        match self.r.below(9) {
            0 => self.put(&[6, 8]),
            1 => self.put(&[5, 6, 0]),
            2 => {
                self.put(&[5]);
                self.sort(below);
            }
            3 => {
                self.put(&[7]);
                self.number();
            }
            4 => {
                self.put(&[8]);
                self.sorts(2, below);
            }
            5 => {
                self.put(&[9, 0]);
                self.sort(below);
            }
            6 => {
                let n = self.some();
                self.put(&[10, 0, n as u32]);
                self.sorts(n, below);
            }
            7 => {
                let n = self.r.pick(&[0, 1, 3]);
                self.put(&[10, 1, n as u32]);
                self.sorts(n, below);
            }
            _ => self.put(&[5, 5, 6, 8]),
        }
    }

    fn binders(&mut self) {
        let n = self.some();
        self.put(&[n as u32]);
        for _ in 0..n {
            self.number();
            let depth = self.r.below(4);
            self.sort(depth);
        }
    }

    /// A field below a limit.
    fn field(&mut self, limit: usize) {
        let word = self.r.below(limit) as u32;
        self.put(&[word]);
    }

    fn leaf(&mut self) {
        if self.fault() {
            self.put(&[49]);
            return self.field(42);
        }
        match self.r.pick(LEAVES) {
            32 => self.numeral(),
            33 => {
                self.put(&[33]);
                self.field(2);
            }
            35 => self.bit_vector(),
            kind => self.variable(kind),
        }
    }

    /// A fresh or a named variable, or a string.
    fn variable(&mut self, kind: u32) {
        self.put(&[kind]);
        if kind == 36 { self.number() } else { self.span() }
    }

    fn exprs(&mut self, n: usize, depth: usize) {
        (0..n).for_each(|_| self.expr(depth));
    }

    fn expr(&mut self, depth: usize) {
        if depth == 0 || self.room == 0 || self.r.one_in(6) {
            return self.leaf();
        }
        self.room -= 1;
        let (kind, depth) = (self.r.pick(if self.plain { NODES } else { ALL_NODES }), depth - 1);
        if kind == 38 {
            return self.application(depth);
        }
        self.put(&[kind]);
        match kind {
            40 => self.field(5),
            47 => self.field(6),
            48 | 50 => self.span(),
            51 => self.binders(),
            52 => self.number(),
            _ => {}
        }
        match kind {
            41 => self.exprs(3, depth),
            42 | 43 => {
                let n = self.some();
                self.put(&[n as u32]);
                self.exprs(n, depth);
            }
            40 | 45..=48 | 52 => self.exprs(2, depth),
            _ => self.expr(depth),
        }
    }

    /// Its output sort may be any, since it is skipped.
    fn application(&mut self, depth: usize) {
        let (flag, n) = (self.r.below(2), self.some());
        self.put(&[38, flag as u32, n as u32]);
        self.exprs(n, depth);
        for _ in 0..flag {
            if self.r.one_in(2) { self.odd_sort(2) } else { self.sort(2) }
        }
        match self.r.below(4) {
            _ if n == 0 || self.fault() => self.expr(depth),
            0 => self.variable(36),
            1 | 2 => self.variable(37),
            _ => {
                let function = 9 + self.r.below(23) as u32;
                self.put(&[49, function]);
            }
        }
    }

    /// Puts a node round what comes next; the words to put behind that.
    fn link(&mut self) -> Vec<u32> {
        match self.r.below(15) {
            0 => self.put(&[39]),
            1 => self.put(&[44]),
            2 => self.put(&[42, 1]),
            3 => self.put(&[51, 0]),
            4 => self.put(&[38, 0, 0]),
            5 => {
                self.put(&[50]);
                self.span();
            }
            6 => {
                self.put(&[40, 4]);
                return vec![33, 0];
            }
            7 => self.put(&[41, 33, 0, 36, 1, 0]),
            8 => {
                self.put(&[43, 3, 33, 1]);
                return vec![32, 5, 0, 0, 0];
            }
            9 => {
                self.put(&[48]);
                self.span();
                self.leaf();
            }
            10 => {
                self.put(&[51]);
                self.binders();
            }
            11 => {
                self.put(&[38, 0, 1]);
                return vec![37, 0, 0];
            }
            12 if !self.plain => {
                self.put(&[52]);
                self.number();
                self.leaf();
            }
            13 if !self.plain => {
                self.put(&[52]);
                self.number();
                return vec![36, 1, 0];
            }
            _ => {
                self.put(&[38, 0, 2, 33, 1]);
                return vec![49, 27];
            }
        }
        Vec::new()
    }
}
