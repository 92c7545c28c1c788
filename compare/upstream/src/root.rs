//! Stand-ins for what the source's `lib.rs` and `format.rs` declare and the other files use.

use crate::constraint::{BinOp, Sort};
use crate::parser::StringTypes;
use derive_where::derive_where;
use std::fmt::{self, Debug};
use std::hash::{Hash, Hasher};

/// What every part of a term can do.
pub trait Plain: Clone + Debug + Eq + Hash {}

impl<T: Clone + Debug + Eq + Hash> Plain for T {}

/// Asks for the traits of the type itself too, as the stand-in for `derive_where` wants it.
pub trait Types: Plain {
    type Sort: Plain;
    type KVar: Plain;
    type Var: Plain;
    type String: Plain;
    type Real: Plain;
    type Tag: Plain;
}

pub trait Identifier {
    fn fmt(&self, to: &mut fmt::Formatter<'_>) -> fmt::Result;
}

#[derive_where(Clone)]
pub struct ConstDecl<T: Types> {
    pub name: T::Var,
    pub sort: Sort<T>,
    pub comment: Option<String>,
}

macro_rules! theory_functions {
    ($($function:ident)*) => {
        #[derive(Clone, Copy, Debug, PartialEq, Eq, Hash)]
        pub enum ThyFunc { $($function),* }

        impl ThyFunc {
            pub const ALL: &[ThyFunc] = &[$(ThyFunc::$function),*];
        }
    };
}

// Those that `parse_thy_func` names, in its order, by which document 01 numbers them.
theory_functions! {
    StrLen
    IntToBv8 Bv8ToInt IntToBv32 Bv32ToInt IntToBv64 Bv64ToInt IntToBv128 Bv128ToInt
    BvUle BvSle BvUge BvSge BvUgt BvSgt BvUlt BvSlt
    BvUdiv BvSdiv BvUrem BvSrem BvLshr BvAshr BvAnd BvOr BvXor BvNot BvAdd BvNeg BvSub BvMul BvShl
    SetEmpty SetSng SetCup SetCap SetDif SetMem SetSub
    MapDefault MapSelect MapStore
}

impl Debug for BinOp {
    fn fmt(&self, to: &mut fmt::Formatter<'_>) -> fmt::Result {
        write!(to, "operator {}", *self as u32)
    }
}

// What the stand-in for `Types` asks for.

impl Clone for StringTypes {
    fn clone(&self) -> Self {
        StringTypes
    }
}

impl Debug for StringTypes {
    fn fmt(&self, to: &mut fmt::Formatter<'_>) -> fmt::Result {
        to.write_str("StringTypes")
    }
}

impl PartialEq for StringTypes {
    fn eq(&self, _: &Self) -> bool {
        true
    }
}

impl Eq for StringTypes {}

impl Hash for StringTypes {
    fn hash<H: Hasher>(&self, _: &mut H) {}
}
