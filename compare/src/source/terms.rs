//! The source's terms with names of any kind: strings where a text is parsed, spans where words are flattened.

use std::marker::PhantomData;
use upstream::{Bind, Expr, Plain, Sort, Types};

/// The source has one type for variables; which one it is, the hooks know.
#[derive(Clone, Debug, PartialEq, Eq, Hash)]
pub enum Var<N> {
    /// Handed out by `fresh_var`; numbers go past 2^64 if need be.
    Fresh(u128),
    Name(N),
}

#[derive(Clone, Debug, PartialEq, Eq, Hash)]
pub struct Terms<N>(PhantomData<N>);

impl<N: Plain> Types for Terms<N> {
    type Sort = N;
    type KVar = N;
    type Var = Var<N>;
    type String = N;
    type Real = ();
    type Tag = ();
}

pub type SortOf<N> = Sort<Terms<N>>;
pub type ExprOf<N> = Expr<Terms<N>>;
pub type BindOf<N> = Bind<Terms<N>>;
pub type Binder<N> = (Var<N>, SortOf<N>);

/// What the operations that parse return.
pub enum Term {
    Sort(SortOf<String>),
    Expr(ExprOf<String>),
    Bind(BindOf<String>),
    Solution(Vec<Binder<String>>, ExprOf<String>),
}
