//! The source's `sexp.rs` alone, unchanged and taken from where it lies, for taking its time. Empty if the source was not at hand when this was
//! built.

#[cfg(flux_source)]
#[allow(clippy::all)]
pub mod sexp {
    include!(env!("SEXP_RS"));
}
