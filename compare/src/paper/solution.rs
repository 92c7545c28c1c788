//! Solutions: parameters and a body, and the body's flattening.

use super::expr::{named, Binder, Expr, Parser};
use super::read::Tree;
use super::refusal::*;
use super::sort::sort;
use crate::call::Refusal;

pub struct Solution<'t> {
    pub parameters: Vec<Binder<'t>>,
    /// Not flattened yet.
    pub body: Expr<'t>,
}

/// All parameters' shapes, then their sorts, then the body, then whether a name was repeated.
pub fn solution<'t>(parser: &mut Parser<'t>, tree: &Tree<'t>) -> Result<Solution<'t>, Refusal> {
    let Tree::List(items) = tree else {
        return Err(MALFORMED);
    };
    let [_, Tree::List(parameters), body] = &items[..] else {
        return Err(MALFORMED);
    };
    let named: Vec<_> = parameters.iter().map(named).collect::<Result<_, _>>()?;
    let sorts: Vec<_> = named.iter().map(|(_, tree)| sort(tree)).collect::<Result<_, _>>()?;
    let names: Vec<_> = named.iter().map(|(name, _)| *name).collect();
    let numbers = parser.open(&names);
    let body = parser.expr(body)?;
    parser.close(names.len())?;
    Ok(Solution { parameters: numbers.zip(sorts).collect(), body })
}

/// An application whose flattened head is an application takes that head's head, its arguments followed by its own, and its own sort.
pub fn uncurry(e: Expr<'_>) -> Expr<'_> {
    let all = |es: Vec<_>| es.into_iter().map(uncurry).collect();
    let one = |e: Box<_>| Box::new(uncurry(*e));
    match e {
        Expr::App { arguments, output, head } => {
            let own: Vec<_> = all(arguments);
            match uncurry(*head) {
                Expr::App { mut arguments, head, .. } => {
                    arguments.extend(own);
                    Expr::App { arguments, output, head }
                }
                head => Expr::App { arguments: own, output, head: Box::new(head) },
            }
        }
        Expr::Neg(e) => Expr::Neg(one(e)),
        Expr::BinaryOp(op, es) => Expr::BinaryOp(op, all(es)),
        Expr::IfThenElse(es) => Expr::IfThenElse(all(es)),
        Expr::And(es) => Expr::And(all(es)),
        Expr::Or(es) => Expr::Or(all(es)),
        Expr::Not(e) => Expr::Not(one(e)),
        Expr::Imp(es) => Expr::Imp(all(es)),
        Expr::Iff(es) => Expr::Iff(all(es)),
        Expr::Atom(relation, es) => Expr::Atom(relation, all(es)),
        Expr::Let(number, es) => Expr::Let(number, all(es)),
        Expr::IsCtor(name, e) => Expr::IsCtor(name, one(e)),
        Expr::Exists(binders, e) => Expr::Exists(binders, one(e)),
        leaf @ (Expr::Numeral(_) | Expr::Boolean(_) | Expr::String(_) | Expr::BitVec(..) | Expr::Fresh(_) | Expr::Var(_) | Expr::ThyFunc(_)) => leaf,
    }
}
