//! The source's `sexp.rs`, `parser.rs` and `constraint.rs`, unchanged and taken from where they lie, over stand-ins for what they import.
//! Empty if the source was not at hand when this was built.

#[cfg(flux_source)]
mod crates;
#[cfg(flux_source)]
mod index_map;
#[cfg(flux_source)]
mod root;

#[cfg(flux_source)]
#[allow(clippy::all)]
pub mod sexp {
    include!(env!("SEXP_RS"));
}

#[cfg(flux_source)]
#[allow(clippy::all, unstable_name_collisions)]
pub mod parser {
    use crate::crates::{itertools, rustc_data_structures};
    include!(env!("PARSER_RS"));
}

#[cfg(flux_source)]
#[allow(clippy::all, dead_code)]
pub mod constraint {
    use crate::crates::{itertools, rustc_data_structures};
    include!(env!("CONSTRAINT_RS"));
}

#[cfg(flux_source)]
pub use constraint::{BinOp, BinRel, Bind, Constant, Expr, Pred, Quantifier, Sort, SortCtor};
#[cfg(flux_source)]
pub use root::{ConstDecl, Identifier, Plain, ThyFunc, Types};
