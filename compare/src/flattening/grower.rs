//! Grows the words of expressions, with many chains of applications, and nestings round the limit.

use crate::paper::MAX_NODES;
use crate::random::Random;

/// What a word of any value is taken from, beside random ones.
const WORDS: &[u32] = &[0, 1, 2, 3, 32, 38, 51, 52, 64, 0x7fff_ffff, 0x8000_0000, 0xffff_ffff];

pub struct Grower<'r> {
    r: &'r mut Random,
    pub words: Vec<u32>,
    /// How many more nodes may have children; then come leaves only.
    room: usize,
    /// Whether there is no let of a number, by intent, so that the source and archives from before such a let have an answer to the words.
    plain: bool,
}

/// A value where any will do.
pub fn any_word(r: &mut Random) -> u32 {
    match r.below(3) {
        0 => r.below(100) as u32,
        1 => r.pick(WORDS),
        _ => r.next() as u32,
    }
}

impl<'r> Grower<'r> {
    pub fn new(r: &'r mut Random) -> Self {
        let (room, plain) = (1 + r.below(40), r.one_in(2));
        Grower { r, words: Vec::new(), room, plain }
    }

    fn put(&mut self, words: &[u32]) {
        self.words.extend_from_slice(words);
    }

    fn any(&mut self, n: usize) {
        for _ in 0..n {
            let word = any_word(self.r);
            self.words.push(word);
        }
    }

    fn some(&mut self) -> usize {
        if self.r.one_in(30) { self.r.below(20) } else { self.r.below(4) }
    }

    pub fn sort(&mut self, depth: usize) {
        let kind = if depth == 0 { 1 + self.r.below(4) } else { 1 + self.r.below(10) };
        self.put(&[kind as u32]);
        match kind {
            5 => self.sort(depth - 1),
            6 => self.any(1),
            7 => self.any(2),
            8 => (0..2).for_each(|_| self.sort(depth - 1)),
            9 => {
                self.any(1);
                self.sort(depth - 1);
            }
            10 => {
                let constructor = self.r.below(3);
                self.put(&[constructor as u32]);
                self.any(if constructor == 2 { 2 } else { 0 });
                let n = self.some();
                self.put(&[n as u32]);
                (0..n).for_each(|_| self.sort(depth - 1));
            }
            _ => {}
        }
    }

    fn leaf(&mut self) {
        let kind = self.r.pick(&[32, 33, 34, 35, 36, 37, 37, 49]);
        self.put(&[kind]);
        match kind {
            32 => self.any(4),
            33 => self.field(2),
            35 => self.any(5),
            49 => self.field(42),
            _ => self.any(2),
        }
    }

    /// A field below a limit.
    fn field(&mut self, limit: usize) {
        let word = self.r.below(limit) as u32;
        self.put(&[word]);
    }

    pub fn expr(&mut self, depth: usize) {
        if depth == 0 || self.room == 0 || self.r.one_in(6) {
            return self.leaf();
        }
        self.room -= 1;
        if self.r.one_in(2) {
            return self.applications(depth - 1);
        }
        let kinds = [39, 40, 41, 42, 43, 44, 45, 46, 47, 48, 50, 51, 52];
        let kind = self.r.pick(&kinds[..kinds.len() - usize::from(self.plain)]);
        self.put(&[kind]);
        let children = match kind {
            40 => {
                self.field(5);
                2
            }
            47 => {
                self.field(6);
                2
            }
            41 => 3,
            42 | 43 => {
                let n = self.some();
                self.put(&[n as u32]);
                n
            }
            45 | 46 => 2,
            48 | 52 => {
                self.any(2);
                2
            }
            50 => {
                self.any(2);
                1
            }
            51 => {
                self.binders();
                1
            }
            _ => 1,
        };
        (0..children).for_each(|_| self.expr(depth - 1));
    }

    fn binders(&mut self) {
        let n = self.some();
        self.put(&[n as u32]);
        for _ in 0..n {
            self.any(2);
            self.sort(2);
        }
    }

    /// Applications, each the head of the one before, down to a head that may be anything.
    fn applications(&mut self, depth: usize) {
        let links = 1 + if self.r.one_in(10) { self.r.below(20) } else { self.r.below(5) };
        for _ in 0..links {
            self.application(depth);
        }
        self.expr(depth.saturating_sub(links));
    }

    /// All of an application but its head.
    fn application(&mut self, depth: usize) {
        let (flag, n) = (self.r.below(2), self.some());
        self.put(&[38, flag as u32, n as u32]);
        (0..n).for_each(|_| self.expr(depth.saturating_sub(1)));
        (0..flag).for_each(|_| self.sort(3));
    }

    /// Puts a node round what comes next; the words to put behind that.
    fn link(&mut self) -> Vec<u32> {
        match self.r.below(14) {
            0 => self.put(&[39]),
            1 => self.put(&[44]),
            2 => self.put(&[50, 7, 7]),
            3 => {
                self.put(&[40, 4]);
                return vec![33, 0];
            }
            4 => self.put(&[41, 33, 0, 36, 1, 0]),
            5 => {
                self.put(&[42, 3, 33, 1]);
                return vec![49, 41];
            }
            6 => self.put(&[48, 1, 1, 37, 5, 1]),
            7 => {
                self.put(&[51]);
                self.binders();
            }
            8 => {
                self.put(&[38, 0, 1]);
                return vec![37, 9, 9];
            }
            9 if !self.plain => {
                self.put(&[52]);
                self.any(2);
                return vec![36, 1, 0];
            }
            10 if !self.plain => {
                self.put(&[52]);
                self.any(2);
                self.leaf();
            }
            _ => self.application(0),
        }
        Vec::new()
    }
}

/// A node inside so many others, mostly round the limit, and sometimes no good one.
pub fn chain(r: &mut Random) -> Vec<u32> {
    let inside = if r.one_in(4) { r.below(MAX_NODES) } else { MAX_NODES - 4 + r.below(7) };
    let mut g = Grower::new(r);
    let behind: Vec<_> = (0..inside).map(|_| g.link()).collect();
    match g.r.below(12) {
        0 => {}
        1 => g.put(&[31]),
        2 => g.put(&[53]),
        3 => g.put(&[52, 1]),
        4 => g.put(&[33, 2]),
        5 => g.put(&[32, 0]),
        6 => g.put(&[42, 0]),
        7 => g.put(&[42, u32::MAX, 33, 0]),
        _ => g.leaf(),
    }
    behind.into_iter().rev().for_each(|b| g.put(&b));
    g.words
}

/// Words that mean nothing by intent.
pub fn any(r: &mut Random) -> Vec<u32> {
    let most = if r.one_in(4) { 40 } else { 10 };
    let n = r.below(most);
    let word = |r: &mut Random| match r.below(8) {
        0..=3 => 32 + r.below(21) as u32,
        4 | 5 => r.below(11) as u32,
        6 => any_word(r),
        _ => r.below(66) as u32,
    };
    (0..n).map(|_| word(r)).collect()
}
