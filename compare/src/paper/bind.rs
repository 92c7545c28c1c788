//! Binds: a name, a sort and predicates.

use super::expr::{Expr, Parser};
use super::item;
use super::read::{Name, Tree};
use super::refusal::*;
use super::sort::{sort, Sort};
use crate::call::Refusal;

pub struct Bind<'t> {
    pub name: Name<'t>,
    pub sort: Sort<'t>,
    pub predicates: Vec<Predicate<'t>>,
}

pub enum Predicate<'t> {
    /// Its name with the `$`, and the names it is given.
    Kvar(Name<'t>, Vec<Name<'t>>),
    Expr(Expr<'t>),
}

/// `((name sort) predicate)`.
pub fn bind<'t>(parser: &mut Parser<'t>, tree: &Tree<'t>) -> Result<Bind<'t>, Refusal> {
    let Tree::List(items) = tree else {
        return Err(MALFORMED);
    };
    let Tree::List(pair) = item(items, 0)? else {
        return Err(MALFORMED);
    };
    let Tree::Symbol(name) = item(pair, 0)? else {
        return Err(MALFORMED);
    };
    let sort = sort(item(pair, 1)?)?;
    let mut predicates = Vec::new();
    predicate(parser, item(items, 1)?, &mut predicates)?;
    Ok(Bind { name: *name, sort, predicates })
}

/// One predicate, or all those of an `and`.
fn predicate<'t>(parser: &mut Parser<'t>, tree: &Tree<'t>, found: &mut Vec<Predicate<'t>>) -> Result<(), Refusal> {
    let Tree::List(items) = tree else {
        return Err(MALFORMED);
    };
    match item(items, 0)? {
        Tree::Symbol(Name { text: "and", .. }) => items[1..].iter().try_for_each(|i| predicate(parser, i, found)),
        Tree::Symbol(name) if name.text.starts_with('$') => {
            found.push(kvar(*name, &items[1..])?);
            Ok(())
        }
        _ => {
            found.push(Predicate::Expr(parser.nested(tree)?));
            Ok(())
        }
    }
}

/// At least one argument, all of them symbols, which no scope is asked about.
fn kvar<'t>(name: Name<'t>, arguments: &[Tree<'t>]) -> Result<Predicate<'t>, Refusal> {
    if arguments.is_empty() {
        return Err(MALFORMED);
    }
    let symbol = |tree: &Tree<'t>| match tree {
        Tree::Symbol(name) => Ok(*name),
        _ => Err(MALFORMED),
    };
    Ok(Predicate::Kvar(name, arguments.iter().map(symbol).collect::<Result<_, _>>()?))
}
