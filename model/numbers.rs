//! Numbers: the types NM and SI of document 01, read off raw bytes with no unescaping (ruling 11).
//! What breaks a type's form is 32; an NM that is well formed but too long is 37.

use crate::reading::{refuse, Refusal};

/// "1 to 18 digits in all."
const MOST_DIGITS: usize = 18;

/// "The result is a signed whole number and a count of decimals."
#[derive(Default)]
pub struct Numeric {
    pub value: i64,
    pub decimals: usize,
}

/// NM: "optional sign, digits, optionally a point and digits; a digit on each side of a point
/// (house); 1 to 18 digits in all". 37: "well formed, but over 18 digits", leading zeros counted
/// (ruling 12).
pub fn numeric(text: &[u8]) -> Result<Numeric, Refusal> {
    let (sign, unsigned) = match text {
        [b'+', behind @ ..] => (1, behind),
        [b'-', behind @ ..] => (-1, behind),
        _ => (1, text),
    };
    // What stands behind the first point is one piece, so a second point in it is no digit.
    let pieces: Vec<&[u8]> = unsigned.splitn(2, |&byte| byte == b'.').collect();
    if !pieces.iter().all(|piece| is_digits(piece)) {
        return refuse(32, 0);
    }
    let digits = pieces.concat();
    if digits.len() > MOST_DIGITS {
        return refuse(37, 0);
    }
    let decimals = pieces.get(1).map_or(0, |behind_point| behind_point.len());
    // "-0 is 0", as a whole number has it.
    Ok(Numeric { value: sign * whole_number(&digits), decimals })
}

/// SI: "one to four digits". Five are 32, never 37 (ruling 12).
pub fn sequence_number(text: &[u8]) -> Result<i64, Refusal> {
    if !is_digits(text) || text.len() > 4 {
        return refuse(32, 0);
    }
    Ok(whole_number(text))
}

/// At least one byte, and all of them digits.
pub fn is_digits(text: &[u8]) -> bool {
    !text.is_empty() && text.iter().all(u8::is_ascii_digit)
}

/// The number that some digits write, at most 18 of them.
pub fn whole_number(digits: &[u8]) -> i64 {
    digits.iter().fold(0, |number, digit| number * 10 + i64::from(digit - b'0'))
}
