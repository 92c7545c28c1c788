//! Operators, relations and theory functions, numbered as in the words.

/// A type whose cases are numbered from 0 in order, each with its spelling.
macro_rules! codes {
    ($(#[$about:meta])* $name:ident: $($case:ident $spelling:literal,)*) => {
        $(#[$about])*
        #[derive(Clone, Copy, Debug, PartialEq, Eq, Hash)]
        pub enum $name {
            $(#[doc = concat!("`", $spelling, "`")] $case,)*
        }

        impl $name {
            /// All of them, by number.
            pub const ALL: &'static [$name] = &[$($name::$case,)*];

            /// Its number in the words.
            pub fn number(self) -> u32 {
                self as u32
            }

            /// The one of this number, if there is one.
            pub fn from_number(number: u32) -> Option<$name> {
                $name::ALL.get(usize::try_from(number).ok()?).copied()
            }

            /// Its spelling.
            pub fn spelling(self) -> &'static str {
                match self {
                    $($name::$case => $spelling,)*
                }
            }
        }
    };
}

codes! {
    /// An operator over two numbers.
    BinOp:
    Add "+",
    Sub "-",
    Mul "*",
    Div "/",
    Mod "mod",
}

codes! {
    /// A relation between two expressions.
    Relation:
    Eq "=",
    Ne "!=",
    Gt ">",
    Ge ">=",
    Lt "<",
    Le "<=",
}

codes! {
    /// A function of the solver's theories. `Map_select` and `Map_store` are read from `arr_select_m` and `arr_store_m`, too.
    ThyFunc:
    StrLen "strLen",
    IntToBv8 "int_to_bv8",
    Bv8ToInt "bv8_to_int",
    IntToBv32 "int_to_bv32",
    Bv32ToInt "bv32_to_int",
    IntToBv64 "int_to_bv64",
    Bv64ToInt "bv64_to_int",
    IntToBv128 "int_to_bv128",
    Bv128ToInt "bv128_to_int",
    BvUle "bvule",
    BvSle "bvsle",
    BvUge "bvuge",
    BvSge "bvsge",
    BvUgt "bvugt",
    BvSgt "bvsgt",
    BvUlt "bvult",
    BvSlt "bvslt",
    BvUdiv "bvudiv",
    BvSdiv "bvsdiv",
    BvUrem "bvurem",
    BvSrem "bvsrem",
    BvLshr "bvlshr",
    BvAshr "bvashr",
    BvAnd "bvand",
    BvOr "bvor",
    BvXor "bvxor",
    BvNot "bvnot",
    BvAdd "bvadd",
    BvNeg "bvneg",
    BvSub "bvsub",
    BvMul "bvmul",
    BvShl "bvshl",
    SetEmpty "Set_empty",
    SetSng "Set_sng",
    SetCup "Set_cup",
    SetCap "Set_cap",
    SetDif "Set_dif",
    SetMem "Set_mem",
    SetSub "Set_sub",
    MapDefault "Map_default",
    MapSelect "Map_select",
    MapStore "Map_store",
}
