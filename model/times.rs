//! Times: the types DT, TM and TS of document 01, read off raw bytes with no unescaping
//! (ruling 11). "A time keeps how much was sent": a part that was not sent is none, and not 0. What
//! breaks a type's form is 32.

use crate::numbers::{is_digits, whole_number};
use crate::reading::{refuse, Refusal};

#[derive(Default)]
pub struct Time {
    pub year: Option<i64>,
    pub month: Option<i64>,
    pub day: Option<i64>,
    pub hour: Option<i64>,
    pub minute: Option<i64>,
    pub second: Option<i64>,
    pub fraction: Option<Fraction>,
    pub offset: Option<Offset>,
}

/// A fraction of a second "as digits with their count (`.5`, `.50`, `.05` differ)" (ruling 13).
pub struct Fraction {
    pub value: i64,
    pub digits: usize,
}

/// "A time keeps the offset's sign, hours and minutes apart (`-0030`, `-0000` and `+0000` stay
/// distinct)" (ruling 13).
pub struct Offset {
    pub sign: char,
    pub hours: i64,
    pub minutes: i64,
}

/// DT: "YYYY[MM[DD]]".
pub fn date(text: &[u8]) -> Result<Time, Refusal> {
    well_formed(read_date(text))
}

/// TM: "HH[MM[SS[.S to .SSSS]]][+/-ZZZZ]".
pub fn time_of_day(text: &[u8]) -> Result<Time, Refusal> {
    well_formed(read_time_of_day(text))
}

/// TS: "YYYY[MM[DD[HHMM[SS[.S to .SSSS]]]]][+/-ZZZZ]".
pub fn time_stamp(text: &[u8]) -> Result<Time, Refusal> {
    well_formed(read_time_stamp(text))
}

/// 32: "breaks its type's form".
fn well_formed(time: Option<Time>) -> Result<Time, Refusal> {
    match time {
        Some(time) => Ok(time),
        None => refuse(32, 0),
    }
}

fn read_date(digits: &[u8]) -> Option<Time> {
    if !is_digits(digits) || !matches!(digits.len(), 4 | 6 | 8) {
        return None;
    }
    let year = whole_number(&digits[..4]);
    let time =
        Time { year: Some(year), month: pair(digits, 4), day: pair(digits, 6), ..Time::default() };
    // "Years 0001 to 9999, Gregorian leap rule."
    let stands = within(time.year, 1, 9999)
        && within(time.month, 1, 12)
        && time.month.is_none_or(|month| within(time.day, 1, days_of_month(year, month)));
    stands.then_some(time)
}

/// A fraction may stand only behind seconds; an offset behind any length.
fn read_time_of_day(text: &[u8]) -> Option<Time> {
    let (text, offset) = take_offset(text)?;
    let (digits, fraction) = take_fraction(text)?;
    if !is_digits(digits) || !matches!(digits.len(), 2 | 4 | 6) {
        return None;
    }
    if fraction.is_some() && digits.len() != 6 {
        return None;
    }
    let (hour, minute, second) = (pair(digits, 0), pair(digits, 2), pair(digits, 4));
    // "Hours 00-23, minutes and seconds 00-59."
    let stands = within(hour, 0, 23) && within(minute, 0, 59) && within(second, 0, 59);
    stands.then_some(Time { hour, minute, second, fraction, offset, ..Time::default() })
}

/// Up to eight digits are a date, alone or with an offset; behind a full date stands a time of day
/// with its minutes: "`YYYYMMDDHH` is no TS" (ruling 13).
fn read_time_stamp(text: &[u8]) -> Option<Time> {
    let (unshifted, offset) = take_offset(text)?;
    if unshifted.len() <= 8 {
        return Some(Time { offset, ..read_date(unshifted)? });
    }
    let date = read_date(&text[..8])?;
    let time = read_time_of_day(&text[8..])?;
    time.minute?;
    Some(Time { year: date.year, month: date.month, day: date.day, ..time })
}

/// What stands before an offset, and the offset where a sign begins one. "Offset hours 00-14 and
/// offset minutes 00-59 (house)."
fn take_offset(text: &[u8]) -> Option<(&[u8], Option<Offset>)> {
    let Some(at) = text.iter().position(|&byte| byte == b'+' || byte == b'-') else {
        return Some((text, None));
    };
    let (before, digits) = (&text[..at], &text[at + 1..]);
    if !is_digits(digits) || digits.len() != 4 {
        return None;
    }
    let (hours, minutes) = (pair(digits, 0)?, pair(digits, 2)?);
    if hours > 14 || minutes > 59 {
        return None;
    }
    Some((before, Some(Offset { sign: char::from(text[at]), hours, minutes })))
}

/// What stands before a fraction, and the fraction where a point begins one: ".S to .SSSS".
fn take_fraction(text: &[u8]) -> Option<(&[u8], Option<Fraction>)> {
    let Some(at) = text.iter().position(|&byte| byte == b'.') else {
        return Some((text, None));
    };
    let (before, digits) = (&text[..at], &text[at + 1..]);
    if !is_digits(digits) || digits.len() > 4 {
        return None;
    }
    Some((before, Some(Fraction { value: whole_number(digits), digits: digits.len() })))
}

/// The number that the two digits at a place write, where they were sent.
fn pair(digits: &[u8], at: usize) -> Option<i64> {
    digits.get(at..at + 2).map(whole_number)
}

/// A part that was not sent breaks no limit.
fn within(part: Option<i64>, low: i64, high: i64) -> bool {
    part.is_none_or(|part| low <= part && part <= high)
}

fn days_of_month(year: i64, month: i64) -> i64 {
    match month {
        2 if is_leap_year(year) => 29,
        2 => 28,
        4 | 6 | 9 | 11 => 30,
        _ => 31,
    }
}

/// "Gregorian leap rule."
fn is_leap_year(year: i64) -> bool {
    year % 4 == 0 && (year % 100 != 0 || year % 400 == 0)
}
