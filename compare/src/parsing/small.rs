//! Every small text: all trees of a size over an alphabet, alone and inside frames, and all short rows of pieces.

use crate::call::Operation;

/// How large the texts are. An atom is a node of a tree, and so is a pair of parentheses.
#[derive(Clone, Copy)]
pub struct Small {
    /// Nodes of a tree that stands alone.
    pub alone: usize,
    /// Nodes of a tree inside a frame.
    pub framed: usize,
    /// Pieces of a row.
    pub row: usize,
}

/// What lists may begin with, and what else stands in them.
pub struct Alphabet {
    heads: &'static [&'static str],
    items: &'static [&'static str],
}

const SORTS: Alphabet = Alphabet {
    heads: &["func", "function", "Set_Set", "Map_t", "BitVec", "nan", "@(0)", "1"],
    items: &["Int", "Size3", "@(1)", "inf", "1", "65", "Sizex"],
};

const EXPRESSIONS: Alphabet = Alphabet {
    heads: &["not", "and", "or", "if", "-", "+", "<=", "=>", "<=>", "cast", "is$C", "let", "exists", "lit", "inf", "as", "5"],
    items: &["x", "1", "1.5", "apply", "Int", "\"#b11\""],
};

const BINDS: Alphabet = Alphabet {
    heads: &["not", "and", "or", "-", "=", "cast", "let", "exists", "$k", "nan", "1"],
    items: &["nan", "1", "1.5", "Int", "$k", "and"],
};

const SOLUTIONS: Alphabet = Alphabet {
    heads: &["lambda", "not", "and", "cast", "exists", "f", "as", "x", "1"],
    items: &["x", "1", "1.5", "apply", "Int", "()"],
};

/// What stands before and behind a tree; the first frame is none.
type Frame = (&'static str, &'static str);

const SORT_FRAMES: &[Frame] = &[
    ("", ""), ("(func 2 ", " Int)"), ("(func ", " (Int) Bool)"), ("(func 1 (Int ", ") Bool)"), ("(BitVec ", ")"), ("(Map_t ", " Int)"),
    ("(function Int ", ")"),
];

const EXPRESSION_FRAMES: &[Frame] = &[
    ("", ""),
    ("(exists ((x Int)) ", ")"),
    ("(exists ((x Int) (x Bool)) ", ")"),
    ("(exists ((y Int)) (exists ((x Int)) ", "))"),
    ("(exists ", " x)"),
    ("(exists (", ") x)"),
    ("(let ", " x)"),
    ("(let (x 1) ", ")"),
    ("(let (x ", ") x)"),
    ("(exists ((x Int)) (let (x x) ", "))"),
    ("((as apply ", ") f)"),
    ("((as apply Int) ", ")"),
    ("(lit \"#b11\" ", ")"),
    ("(lit \"#b11\" (", " Size2))"),
    ("(lit \"#b11\" (", " Size3))"),
    ("(lit ", " (BitVec Size2))"),
    ("(lit ", " (BitVec Size3))"),
    ("(", " a)"),
    ("(", " (exists ((x Int)) x))"),
    ("((not f) ", ")"),
    ("(not (", "))"),
];

const BIND_FRAMES: &[Frame] = &[
    ("", ""), ("((nan Int) ", ")"), ("((nan ", ") ($k nan))"), ("(", " ($k nan))"), ("((nan Int) (and ($k nan) ", "))"), ("((nan Int) (", "))"),
    ("((nan Int) (exists ((nan Int)) ", "))"), ("((nan Int) (exists ((y Int) (y Int)) ", "))"), ("((nan Int) (let (nan nan) ", "))"),
];

const SOLUTION_FRAMES: &[Frame] = &[
    ("", ""), ("(lambda () ", ")"), ("(lambda ((x Int)) ", ")"), ("(lambda ((x Int) (x Int)) ", ")"), ("(lambda ", " x)"), ("(lambda (", ") x)"),
    ("(lambda ((x ", ")) x)"), ("(", " () x)"), ("(lambda () (", " a))"), ("(lambda () (", " ((as apply Int) f)))"),
    ("(lambda () (((as apply Int) ", ") a))"), ("(lambda ((x Int)) (((not f) x) ", "))"),
    ("(lambda ((x Int)) (let (x x) ", "))"), ("(lambda ((x Int)) (let ", " x))"),
];

const PIECES: &[&str] = &["(", ")", "Int ", "func ", "and ", "1 ", "\"", "@"];

fn parts(op: Operation) -> (&'static Alphabet, &'static [Frame]) {
    match op {
        Operation::Expression => (&EXPRESSIONS, EXPRESSION_FRAMES),
        Operation::Bind => (&BINDS, BIND_FRAMES),
        Operation::Solution => (&SOLUTIONS, SOLUTION_FRAMES),
        _ => (&SORTS, SORT_FRAMES),
    }
}

/// All texts up to these sizes.
pub fn texts(op: Operation, most: Small, each: &mut dyn FnMut(&[u8])) {
    let (alphabet, frames) = parts(op);
    for (i, (before, behind)) in frames.iter().enumerate() {
        for size in 1..=if i == 0 { most.alone } else { most.framed } {
            alphabet.tree(&mut before.to_string(), size, false, &mut |text| {
                let len = text.len();
                text.push_str(behind);
                each(text.as_bytes());
                text.truncate(len);
            });
        }
    }
    (0..=most.row).for_each(|len| rows(&mut String::new(), len, each));
}

fn rows(text: &mut String, len: usize, each: &mut dyn FnMut(&[u8])) {
    if len == 0 {
        return each(text.as_bytes());
    }
    for piece in PIECES {
        text.push_str(piece);
        rows(text, len - 1, each);
        text.truncate(text.len() - piece.len());
    }
}

/// What to do with a text that has grown by one more part.
type Then<'a> = &'a mut dyn FnMut(&mut String);

impl Alphabet {
    /// Puts every tree of so many nodes behind the text, each in its turn.
    fn tree(&self, text: &mut String, size: usize, head: bool, then: Then) {
        let len = text.len();
        if size == 1 {
            for atom in if head { self.heads } else { self.items }.iter().chain(&["()"]) {
                text.push_str(atom);
                then(text);
                text.truncate(len);
            }
            return;
        }
        text.push('(');
        self.items(text, size - 1, true, &mut |text| {
            text.push(')');
            then(text);
            text.pop();
        });
        text.truncate(len);
    }

    /// Every row of trees with so many nodes together.
    fn items(&self, text: &mut String, size: usize, first: bool, then: Then) {
        if size == 0 {
            return then(text);
        }
        let len = text.len();
        if !first {
            text.push(' ');
        }
        for taken in 1..=size {
            self.tree(text, taken, first, &mut |text| self.items(text, size - taken, false, then));
        }
        text.truncate(len);
    }
}
