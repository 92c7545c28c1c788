//! Refusals by number.

use crate::call::Refusal;

pub const TOO_LONG: Refusal = 1;
pub const NOT_UTF8: Refusal = 2;
pub const ENDS_EARLY: Refusal = 3;
pub const CLOSES_NOTHING: Refusal = 4;
pub const UNCLOSED: Refusal = 5;
pub const TOO_DEEP: Refusal = 6;
pub const NO_ROOM: Refusal = 7;
/// Any other error, panic or missing item in the source's rules.
pub const MALFORMED: Refusal = 8;
pub const DECIMAL: Refusal = 9;
pub const REPEATED_NAME: Refusal = 10;
pub const NO_BITS: Refusal = 11;
pub const FUNC_NUMBER: Refusal = 12;
pub const NUMBERS_SPENT: Refusal = 13;
/// Words that end early, are left over, or are outside their code, or a span that is outside the text lent with them.
pub const NO_WORDS: Refusal = 14;
/// A part of a solution that SMT-LIB has no form for.
pub const UNWRITABLE: Refusal = 15;
/// A byte of a name or string that SMT-LIB does not take as it is.
pub const UNPRINTABLE: Refusal = 16;
/// A literal with more or fewer digits than its size says.
pub const WRONG_WIDTH: Refusal = 17;
