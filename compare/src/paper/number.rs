//! Which texts are numbers. The paper says "what Rust reads", so Rust reads them here; request C-14 takes three words out.

/// An optional sign and digits, from -2^127 to 2^127 - 1.
pub fn integer(text: &str) -> Option<i128> {
    text.parse().ok()
}

/// Of a text that is no integer: whether it is a decimal. No value is kept.
pub fn is_decimal(text: &str) -> bool {
    text.parse::<f64>().is_ok() && !is_word(text)
}

/// Request C-14: `inf`, `infinity` and `nan`, in any case and with any sign, are symbols.
fn is_word(text: &str) -> bool {
    let letters = text.strip_prefix(['+', '-']).unwrap_or(text);
    ["inf", "infinity", "nan"].iter().any(|word| letters.eq_ignore_ascii_case(word))
}

/// The width behind `Size`: an optional `+` and digits, below 2^32.
pub fn width(text: &str) -> Option<u32> {
    text.parse().ok()
}

/// The index inside `@(..)`: an optional `+` and digits, below 2^64.
pub fn index(text: &str) -> Option<u64> {
    text.parse().ok()
}

/// The value of a literal's digits: at least one, each 0 or 1, without a sign, and below 2^128; zeros before it may be any number.
pub fn binary(digits: &str) -> Option<u128> {
    if digits.is_empty() {
        return None;
    }
    digits.chars().try_fold(0u128, |value, digit| value.checked_mul(2)?.checked_add(digit.to_digit(2)?.into()))
}
