//! Expressions, and the scopes that are open while they are read.

use super::item;
use super::number;
use super::read::{Name, Tree};
use super::refusal::*;
use super::sort::{sort, width_of_pair, Sort};
use super::theory;
use crate::call::Refusal;
use std::collections::HashMap;
use std::ops::Range;

#[derive(Clone, Debug)]
pub enum Expr<'t> {
    Numeral(u128),
    Boolean(bool),
    String(Name<'t>),
    BitVec(u128, u32),
    Fresh(u128),
    Var(Name<'t>),
    App { arguments: Vec<Expr<'t>>, output: Option<Sort<'t>>, head: Box<Expr<'t>> },
    Neg(Box<Expr<'t>>),
    BinaryOp(u32, Vec<Expr<'t>>),
    IfThenElse(Vec<Expr<'t>>),
    And(Vec<Expr<'t>>),
    Or(Vec<Expr<'t>>),
    Not(Box<Expr<'t>>),
    Imp(Vec<Expr<'t>>),
    Iff(Vec<Expr<'t>>),
    Atom(u32, Vec<Expr<'t>>),
    /// Its number; binding, then body.
    Let(u128, Vec<Expr<'t>>),
    ThyFunc(u32),
    IsCtor(Name<'t>, Box<Expr<'t>>),
    Exists(Vec<Binder<'t>>, Box<Expr<'t>>),
}

/// A fresh number and its sort.
pub type Binder<'t> = (u128, Sort<'t>);

type Read<T> = Result<T, Refusal>;

/// The reader inside one call. Numbers are handed out past 2^64 if need be: that they are spent is judged when all is read.
pub struct Parser<'t> {
    /// Innermost last.
    scopes: Vec<HashMap<&'t str, u128>>,
    pub next: u128,
}

/// What stands inside lists of one element.
fn seen_through<'a, 't>(mut tree: &'a Tree<'t>) -> &'a Tree<'t> {
    while let Tree::List(items) = tree {
        match &items[..] {
            [only] => tree = only,
            _ => break,
        }
    }
    tree
}

/// A pair of a name and a sort that is still to be read.
pub fn named<'a, 't>(tree: &'a Tree<'t>) -> Read<(Name<'t>, &'a Tree<'t>)> {
    match tree {
        Tree::List(items) => match &items[..] {
            [Tree::Symbol(name), sort] => Ok((*name, sort)),
            _ => Err(MALFORMED),
        },
        _ => Err(MALFORMED),
    }
}

impl<'t> Parser<'t> {
    pub fn new(count: u64) -> Self {
        Parser { scopes: Vec::new(), next: count.into() }
    }

    /// Opens a scope: each name takes a number.
    pub fn open(&mut self, names: &[Name<'t>]) -> Range<u128> {
        let first = self.next;
        self.next += names.len() as u128;
        self.scopes.push(names.iter().map(|n| n.text).zip(first..).collect());
        first..self.next
    }

    /// Closes the innermost scope, which held so many names.
    pub fn close(&mut self, names: usize) -> Read<()> {
        match self.scopes.pop() {
            Some(scope) if scope.len() == names => Ok(()),
            _ => Err(REPEATED_NAME),
        }
    }

    pub fn expr(&mut self, tree: &Tree<'t>) -> Read<Expr<'t>> {
        match tree {
            Tree::List(items) => self.list(items),
            Tree::Symbol(name) => Ok(self.symbol(*name)),
            Tree::Quoted(string) => Ok(Expr::String(*string)),
            Tree::Boolean(b) => Ok(Expr::Boolean(*b)),
            Tree::Integer(i) => {
                let numeral = Expr::Numeral(i.unsigned_abs());
                Ok(if *i < 0 { Expr::Neg(Box::new(numeral)) } else { numeral })
            }
            Tree::Decimal(_) => Err(DECIMAL),
        }
    }

    /// An expression where lists of one element are seen through.
    pub fn nested(&mut self, tree: &Tree<'t>) -> Read<Expr<'t>> {
        self.expr(seen_through(tree))
    }

    /// Theory name, then innermost scope, then named variable.
    fn symbol(&self, name: Name<'t>) -> Expr<'t> {
        if let Some(function) = theory::function(name.text) {
            return Expr::ThyFunc(function);
        }
        match self.scopes.iter().rev().find_map(|scope| scope.get(name.text)) {
            Some(number) => Expr::Fresh(*number),
            None => Expr::Var(name),
        }
    }

    fn list(&mut self, items: &[Tree<'t>]) -> Read<Expr<'t>> {
        let Tree::Symbol(head) = item(items, 0)? else {
            return self.application(items);
        };
        match head.text {
            "cast" | "cast_as_int" => self.expr(item(items, 1)?),
            "exists" => self.exists(&items[1..]),
            "let" => self.let_in(items),
            "not" => Ok(Expr::Not(self.operand(items)?)),
            "or" => Ok(Expr::Or(self.each(&items[1..])?)),
            "and" => Ok(Expr::And(self.each(&items[1..])?)),
            "lit" => literal(items),
            "if" => Ok(Expr::IfThenElse(self.operands(3, items)?)),
            "-" if items.len() == 2 => Ok(Expr::Neg(self.operand(items)?)),
            "+" => Ok(Expr::BinaryOp(0, self.operands(2, items)?)),
            "-" => Ok(Expr::BinaryOp(1, self.operands(2, items)?)),
            "*" => Ok(Expr::BinaryOp(2, self.operands(2, items)?)),
            "/" => Ok(Expr::BinaryOp(3, self.operands(2, items)?)),
            "mod" => Ok(Expr::BinaryOp(4, self.operands(2, items)?)),
            "=" => Ok(Expr::Atom(0, self.operands(2, items)?)),
            "!=" => Ok(Expr::Atom(1, self.operands(2, items)?)),
            ">" => Ok(Expr::Atom(2, self.operands(2, items)?)),
            ">=" => Ok(Expr::Atom(3, self.operands(2, items)?)),
            "<" => Ok(Expr::Atom(4, self.operands(2, items)?)),
            "<=" => Ok(Expr::Atom(5, self.operands(2, items)?)),
            "<=>" => Ok(Expr::Iff(self.operands(2, items)?)),
            "=>" => Ok(Expr::Imp(self.operands(2, items)?)),
            text => match text.strip_prefix("is$") {
                Some(text) => {
                    let constructor = Name { start: head.start + 3, text };
                    Ok(Expr::IsCtor(constructor, Box::new(self.expr(item(items, 1)?)?)))
                }
                None => self.application(items),
            },
        }
    }

    /// The first `n` items behind the head; one that is missing is met when its turn comes.
    fn operands(&mut self, n: usize, items: &[Tree<'t>]) -> Read<Vec<Expr<'t>>> {
        (1..=n).map(|i| self.nested(item(items, i)?)).collect()
    }

    fn operand(&mut self, items: &[Tree<'t>]) -> Read<Box<Expr<'t>>> {
        Ok(Box::new(self.nested(item(items, 1)?)?))
    }

    fn each(&mut self, items: &[Tree<'t>]) -> Read<Vec<Expr<'t>>> {
        items.iter().map(|tree| self.nested(tree)).collect()
    }

    /// The head is a list; with `apply` as its second item it gives a sort, else the arguments are read before it.
    fn application(&mut self, items: &[Tree<'t>]) -> Read<Expr<'t>> {
        let Tree::List(inner) = item(items, 0)? else {
            return Err(MALFORMED);
        };
        if matches!(item(inner, 1)?, Tree::Symbol(Name { text: "apply", .. })) {
            let output = Some(sort(item(inner, 2)?)?);
            return Ok(Expr::App { arguments: Vec::new(), output, head: self.operand(items)? });
        }
        let arguments = self.each(&items[1..])?;
        Ok(Expr::App { arguments, output: None, head: Box::new(self.nested(&items[0])?) })
    }

    /// Binder by binder, then the numbers, then the body, and last whether a name was repeated.
    fn exists(&mut self, items: &[Tree<'t>]) -> Read<Expr<'t>> {
        let [Tree::List(binders), body] = items else {
            return Err(MALFORMED);
        };
        let (mut names, mut sorts) = (Vec::new(), Vec::new());
        for binder in binders {
            let (name, tree) = named(binder)?;
            names.push(name);
            sorts.push(sort(tree)?);
        }
        let numbers = self.open(&names);
        let body = self.nested(body)?;
        self.close(names.len())?;
        Ok(Expr::Exists(numbers.zip(sorts).collect(), Box::new(body)))
    }

    /// The binding is read outside, and first; then the name takes its number, and the body is read with it.
    fn let_in(&mut self, items: &[Tree<'t>]) -> Read<Expr<'t>> {
        let Tree::List(pair) = seen_through(item(items, 1)?) else {
            return Err(MALFORMED);
        };
        let Tree::Symbol(name) = item(pair, 0)? else {
            return Err(MALFORMED);
        };
        let binding = self.nested(item(pair, 1)?)?;
        let number = self.open(&[*name]).start;
        let body = self.nested(item(items, 2)?)?;
        self.close(1)?;
        Ok(Expr::Let(number, vec![binding, body]))
    }
}

/// `(lit "#b..." (.. Size..))`: the string, then the digits behind `#b`, then the size, and last that there are as many digits as it says.
fn literal<'t>(items: &[Tree<'t>]) -> Read<Expr<'t>> {
    let Tree::Quoted(string) = item(items, 1)? else {
        return Err(MALFORMED);
    };
    let digits = string.text.strip_prefix("#b").ok_or(MALFORMED)?;
    let value = number::binary(digits).ok_or(NO_BITS)?;
    let width = width_of_pair(item(items, 2)?)?;
    if digits.len() as u64 != u64::from(width) {
        return Err(WRONG_WIDTH);
    }
    Ok(Expr::BitVec(value, width))
}
