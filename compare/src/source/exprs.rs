//! The source's expressions, binds and solutions written in document 01's words.

use super::terms::{BindOf, Binder, ExprOf, Term, Terms, Var};
use super::words::{Origin, Spans, Words};
use upstream::{Constant, Expr, Plain, Pred, Quantifier};

impl<S> Words<S> {
    pub fn term(&mut self, term: &Term)
    where
        S: Spans<String>,
    {
        match term {
            Term::Sort(sort) => self.sort(sort),
            Term::Expr(expr) => self.expr(expr),
            Term::Bind(bind) => self.bind(bind),
            Term::Solution(parameters, expr) => {
                self.binders(parameters);
                self.expr(expr);
            }
        }
    }

    fn constant<N: Plain>(&mut self, constant: &Constant<Terms<N>>)
    where
        S: Spans<N>,
    {
        match constant {
            Constant::Numeral(n) => {
                self.put(&[32]);
                self.wide(*n);
            }
            Constant::Boolean(b) => self.put(&[33, *b as u32]),
            Constant::String(string) => {
                self.put(&[34]);
                self.name(string, Origin::Quoted);
            }
            Constant::BitVec(bits, width) => {
                self.put(&[35]);
                self.wide(*bits);
                self.put(&[*width]);
            }
            Constant::Real(()) => panic!("the parser never builds Real"),
        }
    }

    pub fn expr<N: Plain>(&mut self, e: &ExprOf<N>)
    where
        S: Spans<N>,
    {
        match e {
            Expr::Constant(constant) => self.constant(constant),
            Expr::Var(Var::Fresh(n)) => {
                self.put(&[36]);
                self.fresh(*n);
            }
            Expr::Var(var) => {
                self.put(&[37]);
                self.var_name(var, Origin::Symbol);
            }
            Expr::App(head, sort_arguments, arguments, output) => {
                assert!(sort_arguments.is_none(), "the parser never builds type arguments");
                self.put(&[38, output.is_some() as u32]);
                self.counted(arguments);
                output.iter().for_each(|s| self.sort(s));
                self.expr(head);
            }
            Expr::Neg(e) => self.node(&[39], [&**e]),
            Expr::BinaryOp(op, es) => self.node(&[40, *op as u32], &**es),
            Expr::IfThenElse(es) => self.node(&[41], &**es),
            Expr::And(es) => {
                self.put(&[42]);
                self.counted(es);
            }
            Expr::Or(es) => {
                self.put(&[43]);
                self.counted(es);
            }
            Expr::Not(e) => self.node(&[44], [&**e]),
            Expr::Imp(es) => self.node(&[45], &**es),
            Expr::Iff(es) => self.node(&[46], &**es),
            Expr::Atom(relation, es) => self.node(&[47, *relation as u32], &**es),
            Expr::Let(var, es) => {
                self.put(&[48]);
                self.var_name(var, Origin::Symbol);
                self.node(&[], &**es);
            }
            Expr::ThyFunc(function) => self.put(&[49, *function as u32]),
            Expr::IsCtor(var, e) => {
                self.put(&[50]);
                self.var_name(var, Origin::Constructor);
                self.expr(e);
            }
            Expr::Quantifier(Quantifier::Exists, binders, body) => {
                self.put(&[51]);
                self.binders(binders);
                self.expr(body);
            }
            Expr::Quantifier(Quantifier::Forall, ..) | Expr::WKVar(_) => panic!("the parser never builds Forall and WKVar"),
        }
    }

    fn node<'a, N: Plain + 'a>(&mut self, head: &[u32], children: impl IntoIterator<Item = &'a ExprOf<N>>)
    where
        S: Spans<N>,
    {
        self.put(head);
        children.into_iter().for_each(|e| self.expr(e));
    }

    fn counted<N: Plain>(&mut self, es: &[ExprOf<N>])
    where
        S: Spans<N>,
    {
        self.count(es.len());
        self.node(&[], es);
    }

    fn binders<N: Plain>(&mut self, binders: &[Binder<N>])
    where
        S: Spans<N>,
    {
        self.count(binders.len());
        for (var, sort) in binders {
            match var {
                Var::Fresh(n) => self.fresh(*n),
                Var::Name(_) => panic!("the source binds a fresh variable"),
            }
            self.sort(sort);
        }
    }

    fn bind(&mut self, bind: &BindOf<String>)
    where
        S: Spans<String>,
    {
        self.var_name(&bind.name, Origin::Symbol);
        self.sort(&bind.sort);
        self.count(bind.preds.len());
        for predicate in &bind.preds {
            match predicate {
                Pred::KVar(name, arguments) => {
                    self.put(&[64]);
                    self.name(name, Origin::Symbol);
                    self.counted(arguments);
                }
                Pred::Expr(e) => self.node(&[65], [e]),
            }
        }
    }
}
