//! The words written: a node is a kind, its fields, then its children.

use super::bind::{Bind, Predicate};
use super::expr::{Binder, Expr};
use super::read::{Name, Tree};
use super::sort::{Constructor, Sort};

/// A fresh number by the place of its two words.
#[derive(Clone, Copy)]
pub enum Fresh {
    Binds(usize),
    Uses(usize),
}

#[derive(Default)]
pub struct Words {
    pub words: Vec<u32>,
    pub fresh: Vec<Fresh>,
}

impl Words {
    fn put(&mut self, words: &[u32]) {
        self.words.extend_from_slice(words);
    }

    fn count(&mut self, n: usize) {
        self.words.push(n as u32);
    }

    fn name(&mut self, name: &Name) {
        self.count(name.start);
        self.count(name.text.len());
    }

    /// Four words, lowest first.
    fn wide(&mut self, n: u128) {
        self.words.extend((0..4).map(|i| (n >> (32 * i)) as u32));
    }

    /// Two words, low then high. Only a number that is not spent is ever written.
    fn number(&mut self, number: u128, of: fn(usize) -> Fresh) {
        assert!(number <= u64::MAX.into());
        self.fresh.push(of(self.words.len()));
        self.put(&[number as u32, (number >> 32) as u32]);
    }

    pub fn tree(&mut self, tree: &Tree) {
        match tree {
            Tree::Symbol(name) => self.named(16, name),
            Tree::Quoted(name) => self.named(17, name),
            Tree::Integer(i) => {
                self.put(&[18]);
                self.wide(*i as u128);
            }
            Tree::Decimal(name) => self.named(19, name),
            Tree::Boolean(b) => self.put(&[20, *b as u32]),
            Tree::List(items) => {
                self.put(&[21, items.len() as u32, 0]);
                let first = self.words.len();
                items.iter().for_each(|i| self.tree(i));
                self.words[first - 1] = (self.words.len() - first) as u32;
            }
        }
    }

    fn named(&mut self, kind: u32, name: &Name) {
        self.put(&[kind]);
        self.name(name);
    }

    pub fn sort(&mut self, sort: &Sort) {
        match sort {
            Sort::Int => self.put(&[1]),
            Sort::Bool => self.put(&[2]),
            Sort::Real => self.put(&[3]),
            Sort::Str => self.put(&[4]),
            Sort::BitVec(width) => self.put(&[5, 6, *width]),
            Sort::Size(width) => self.put(&[6, *width]),
            Sort::Var(index) => self.put(&[7, *index as u32, (index >> 32) as u32]),
            Sort::Func(k, inputs, output) => {
                (0..*k).for_each(|i| self.put(&[9, i]));
                for input in inputs {
                    self.put(&[8]);
                    self.sort(input);
                }
                self.sort(output);
            }
            Sort::App(constructor, arguments) => {
                self.put(&[10]);
                match constructor {
                    Constructor::Set => self.put(&[0]),
                    Constructor::Map => self.put(&[1]),
                    Constructor::Data(name) => self.named(2, name),
                }
                self.count(arguments.len());
                arguments.iter().for_each(|a| self.sort(a));
            }
        }
    }

    pub fn expr(&mut self, e: &Expr) {
        match e {
            Expr::Numeral(n) => {
                self.put(&[32]);
                self.wide(*n);
            }
            Expr::Boolean(b) => self.put(&[33, *b as u32]),
            Expr::String(name) => self.named(34, name),
            Expr::BitVec(bits, width) => {
                self.put(&[35]);
                self.wide(*bits);
                self.put(&[*width]);
            }
            Expr::Fresh(number) => {
                self.put(&[36]);
                self.number(*number, Fresh::Uses);
            }
            Expr::Var(name) => self.named(37, name),
            Expr::App { arguments, output, head } => {
                self.put(&[38, output.is_some() as u32]);
                self.counted(arguments);
                output.iter().for_each(|s| self.sort(s));
                self.expr(head);
            }
            Expr::Neg(e) => self.node(&[39], [&**e]),
            Expr::BinaryOp(op, es) => self.node(&[40, *op], es),
            Expr::IfThenElse(es) => self.node(&[41], es),
            Expr::And(es) => {
                self.put(&[42]);
                self.counted(es);
            }
            Expr::Or(es) => {
                self.put(&[43]);
                self.counted(es);
            }
            Expr::Not(e) => self.node(&[44], [&**e]),
            Expr::Imp(es) => self.node(&[45], es),
            Expr::Iff(es) => self.node(&[46], es),
            Expr::Atom(relation, es) => self.node(&[47, *relation], es),
            Expr::Let(number, es) => {
                self.put(&[52]);
                self.number(*number, Fresh::Binds);
                self.node(&[], es);
            }
            Expr::ThyFunc(function) => self.put(&[49, *function]),
            Expr::IsCtor(name, e) => {
                self.named(50, name);
                self.expr(e);
            }
            Expr::Exists(binders, body) => {
                self.put(&[51]);
                self.binders(binders);
                self.expr(body);
            }
        }
    }

    fn node<'a, 't: 'a>(&mut self, head: &[u32], children: impl IntoIterator<Item = &'a Expr<'t>>) {
        self.put(head);
        children.into_iter().for_each(|e| self.expr(e));
    }

    fn counted(&mut self, es: &[Expr]) {
        self.count(es.len());
        self.node(&[], es);
    }

    pub fn binders(&mut self, binders: &[Binder]) {
        self.count(binders.len());
        for (number, sort) in binders {
            self.number(*number, Fresh::Binds);
            self.sort(sort);
        }
    }

    pub fn bind(&mut self, bind: &Bind) {
        self.name(&bind.name);
        self.sort(&bind.sort);
        self.count(bind.predicates.len());
        for predicate in &bind.predicates {
            match predicate {
                Predicate::Kvar(name, arguments) => {
                    self.named(64, name);
                    self.count(arguments.len());
                    arguments.iter().for_each(|a| self.named(37, a));
                }
                Predicate::Expr(e) => self.node(&[65], [e]),
            }
        }
    }
}
