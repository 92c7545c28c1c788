//! The refusals and their numbers.

use std::error::Error;
use std::fmt;

/// Why a call was refused. After a refusal every slice that was lent for writing is zero, and the reader is as it was.
#[derive(Clone, Copy, Debug, PartialEq, Eq, Hash, PartialOrd, Ord)]
#[repr(u32)]
#[non_exhaustive]
pub enum Refusal {
    /// The text has more than [`MAX_BYTES`](crate::MAX_BYTES) bytes.
    TooLong = 1,
    /// The text is not UTF-8; all of it is judged, also what stands behind the first expression.
    NotUtf8 = 2,
    /// The text ends before an expression or a list does.
    EndsEarly = 3,
    /// A `)` stands where an expression should start.
    StrayClose = 4,
    /// A string or an `@` is not closed.
    Unclosed = 5,
    /// More than [`MAX_LISTS`](crate::MAX_LISTS) lists nest, or in words more than
    /// [`MAX_EXPRESSIONS`](crate::MAX_EXPRESSIONS) expressions.
    TooDeep = 6,
    /// A lent slice has fewer words or bytes than are needed.
    NoRoom = 7,
    /// What was read is no sort, expression, bind or solution.
    Malformed = 8,
    /// A decimal stands as an expression.
    Decimal = 9,
    /// An exists or a solution binds a name twice.
    RepeatedName = 10,
    /// The digits of a `lit` are missing, not binary, or 2^128 and more.
    BadBits = 11,
    /// The number of a `func` is outside 0 to 64.
    FuncNumber = 12,
    /// The fresh numbers run out: the count would exceed 2^64 - 1.
    NumbersSpent = 13,
    /// The words are not those of one expression to be flattened, or of one solution to be written as a term; or a name
    /// or string in them is outside the text that is lent with them.
    BadWords = 14,
    /// A part of the solution cannot be written in SMT-LIB: a Set or function sort, a sort variable, a Map without two
    /// sorts, a width outside a BitVec, a BitVec without one; a function of sets, strings, maps or conversions, or one of
    /// bit-vectors without arguments; a width of 0 or a value too large for its width; or a head with arguments that is
    /// neither a variable nor a bit-vector function.
    Unwritable = 15,
    /// A name or string of the solution has `|`, `"`, a backslash or a byte outside 32 to 126.
    Unprintable = 16,
    /// A `lit` has more or fewer digits than its size says.
    WrongWidth = 17,
}

use Refusal::*;

impl Refusal {
    /// All refusals, from 1 on.
    pub const ALL: &'static [Refusal] = &[
        TooLong,
        NotUtf8,
        EndsEarly,
        StrayClose,
        Unclosed,
        TooDeep,
        NoRoom,
        Malformed,
        Decimal,
        RepeatedName,
        BadBits,
        FuncNumber,
        NumbersSpent,
        BadWords,
        Unwritable,
        Unprintable,
        WrongWidth,
    ];

    /// The refusal's number, 1 to 17.
    pub fn number(self) -> u32 {
        self as u32
    }

    /// The refusal of this number, if there is one.
    pub fn from_number(number: u32) -> Option<Refusal> {
        let place = usize::try_from(number).ok()?.checked_sub(1)?;
        Refusal::ALL.get(place).copied()
    }
}

impl fmt::Display for Refusal {
    fn fmt(&self, f: &mut fmt::Formatter<'_>) -> fmt::Result {
        f.pad(match self {
            TooLong => "the text has more bytes than a text may have",
            NotUtf8 => "the text is not UTF-8",
            EndsEarly => "the text ends before an expression or a list does",
            StrayClose => "a `)` stands where an expression should start",
            Unclosed => "a string or an `@` is not closed",
            TooDeep => "too many lists or expressions stand inside one another",
            NoRoom => "a lent slice has fewer words or bytes than are needed",
            Malformed => "the text does not have the form that was asked for",
            Decimal => "a decimal stands as an expression",
            RepeatedName => "an exists or a solution binds a name twice",
            BadBits => "the digits of a `lit` are missing, not binary, or 2^128 and more",
            FuncNumber => "the number of a `func` is outside 0 to 64",
            NumbersSpent => "the fresh numbers run out",
            BadWords => "the words are not those of one expression or solution over the text",
            Unwritable => "a part of the solution cannot be written in SMT-LIB",
            Unprintable => "a name or string has a byte that cannot stand in SMT-LIB as it is",
            WrongWidth => "a `lit` has more or fewer digits than its size says",
        })
    }
}

impl Error for Refusal {}
