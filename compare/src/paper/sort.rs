//! Sorts.

use super::item;
use super::number;
use super::read::{Name, Tree};
use super::refusal::*;
use crate::call::Refusal;

const MAX_FUNC: i128 = 64;

#[derive(Clone, Debug)]
pub enum Sort<'t> {
    Int,
    Bool,
    Real,
    Str,
    BitVec(u32),
    Size(u32),
    Var(u64),
    /// `(func k (inputs) output)` as it is spelled; the nesting of Func and Abs is made when it is written.
    Func(u32, Vec<Sort<'t>>, Box<Sort<'t>>),
    App(Constructor<'t>, Vec<Sort<'t>>),
}

#[derive(Clone, Copy, Debug)]
pub enum Constructor<'t> {
    Set,
    Map,
    Data(Name<'t>),
}

pub fn sort<'t>(tree: &Tree<'t>) -> Result<Sort<'t>, Refusal> {
    match tree {
        Tree::Symbol(name) => symbol(*name),
        Tree::List(items) => list(items),
        _ => Err(MALFORMED),
    }
}

fn symbol(name: Name<'_>) -> Result<Sort<'_>, Refusal> {
    match name.text {
        "Int" | "int" => Ok(Sort::Int),
        "Bool" | "bool" => Ok(Sort::Bool),
        "Real" | "real" => Ok(Sort::Real),
        "Str" | "str" => Ok(Sort::Str),
        text if text.starts_with("Size") => size_named(text).map(Sort::Size),
        text => Ok(match text.strip_prefix("@(").and_then(|t| t.strip_suffix(")")).and_then(number::index) {
            Some(index) => Sort::Var(index),
            None => Sort::App(Constructor::Data(name), Vec::new()),
        }),
    }
}

fn size_named(text: &str) -> Result<u32, Refusal> {
    text.strip_prefix("Size").and_then(number::width).ok_or(MALFORMED)
}

/// A width where nothing but a symbol `Size..` will do.
fn size(tree: &Tree<'_>) -> Result<u32, Refusal> {
    match tree {
        Tree::Symbol(name) => size_named(name.text),
        _ => Err(MALFORMED),
    }
}

/// The width of a list of two whose second item is a size; its first is not looked at.
pub fn width_of_pair(tree: &Tree<'_>) -> Result<u32, Refusal> {
    match tree {
        Tree::List(items) if items.len() == 2 => size(&items[1]),
        _ => Err(MALFORMED),
    }
}

fn list<'t>(items: &[Tree<'t>]) -> Result<Sort<'t>, Refusal> {
    let Tree::Symbol(head) = item(items, 0)? else {
        return Err(MALFORMED);
    };
    if head.text == "func" && items.len() == 4 {
        return func(&items[1], &items[2], &items[3]);
    }
    if head.text == "function" && items.len() == 3 {
        let input = sort(&items[1])?;
        return Ok(Sort::Func(0, vec![input], Box::new(sort(&items[2])?)));
    }
    // The arguments are read before the constructor is judged.
    let arguments = sorts(&items[1..])?;
    match (head.text, arguments.len()) {
        ("Set_Set", 1) => Ok(Sort::App(Constructor::Set, arguments)),
        ("Map_t" | "Array_t", 2) => Ok(Sort::App(Constructor::Map, arguments)),
        ("BitVec", 1) => size(&items[1]).map(Sort::BitVec),
        _ => Ok(Sort::App(Constructor::Data(*head), arguments)),
    }
}

fn sorts<'t>(trees: &[Tree<'t>]) -> Result<Vec<Sort<'t>>, Refusal> {
    trees.iter().map(sort).collect()
}

/// Its shape, its number, its inputs, its output.
fn func<'t>(number: &Tree<'t>, inputs: &Tree<'t>, output: &Tree<'t>) -> Result<Sort<'t>, Refusal> {
    let (Tree::Integer(k), Tree::List(inputs)) = (number, inputs) else {
        return Err(MALFORMED);
    };
    if !(0..=MAX_FUNC).contains(k) {
        return Err(FUNC_NUMBER);
    }
    let inputs = sorts(inputs)?;
    Ok(Sort::Func(*k as u32, inputs, Box::new(sort(output)?)))
}
