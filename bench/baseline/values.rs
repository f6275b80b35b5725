//! Numbers and times, read off the bytes of an element: what breaks a form is 32, and a number that
//! has its form and over 18 digits is 37. One who asks only whether a form is kept pays for no value:
//! these are inlined, and what nobody looks at is left out.

/// A part of a time that was not sent: no figure is as large.
pub const NOT_SENT: u32 = u32::MAX;

/// A whole number, and how many of its digits stand behind the point.
#[derive(Clone, Copy, Default)]
pub struct Number {
    pub value: i64,
    pub decimals: usize,
}

/// The parts of a time, each `NOT_SENT` where it was not.
#[derive(Clone, Copy)]
pub struct Time {
    /// Year, month and day.
    pub date: [u32; 3],
    /// Hour, minute, second and what the digits behind its point say as a number.
    pub clock: [u32; 4],
    /// How many digits stand behind the point.
    pub digits: u32,
    /// Hours and minutes, and their sign as it was sent: 0 where there is no offset.
    pub offset: [u32; 2],
    pub sign: u8,
}

const NO_TIME: Time =
    Time { date: [NOT_SENT; 3], clock: [NOT_SENT; 4], digits: 0, offset: [0; 2], sign: 0 };

impl Default for Time {
    fn default() -> Time {
        NO_TIME
    }
}

/// SI: one to four digits.
#[inline(always)]
pub fn si(bytes: &[u8]) -> Result<Number, u32> {
    match matches!(bytes.len(), 1..=4) && bytes.iter().all(u8::is_ascii_digit) {
        true => Ok(Number { value: figures(bytes, 0), decimals: 0 }),
        false => Err(32),
    }
}

/// NM: an optional sign, digits, and optionally a point and digits.
#[inline(always)]
pub fn nm(bytes: &[u8]) -> Result<Number, u32> {
    let (minus, unsigned) = match bytes {
        [b'-', unsigned @ ..] => (true, unsigned),
        [b'+', unsigned @ ..] => (false, unsigned),
        _ => (false, bytes),
    };
    let (whole, rest) = leading_digits(unsigned);
    let (fraction, rest) = match rest {
        [b'.', behind @ ..] => match leading_digits(behind) {
            ([], _) => return Err(32),
            fraction => fraction,
        },
        _ => (&b""[..], rest),
    };
    if whole.is_empty() || !rest.is_empty() {
        return Err(32);
    }
    if whole.len() + fraction.len() > 18 {
        return Err(37);
    }
    let value = figures(fraction, figures(whole, 0));
    Ok(Number { value: if minus { -value } else { value }, decimals: fraction.len() })
}

/// DT: YYYY[MM[DD]].
#[inline(always)]
pub fn dt(bytes: &[u8]) -> Result<Time, u32> {
    let (digits, rest) = leading_digits(bytes);
    match date_of(digits) {
        Some(date) if rest.is_empty() => Ok(Time { date, ..NO_TIME }),
        _ => Err(32),
    }
}

/// TM: HH[MM[SS[.S to .SSSS]]][+/-ZZZZ].
#[inline(always)]
pub fn tm(bytes: &[u8]) -> Result<Time, u32> {
    let (digits, rest) = leading_digits(bytes);
    let clock = clock_of(digits).ok_or(32_u32)?;
    with_tail(Time { clock, ..NO_TIME }, rest)
}

/// TS: YYYY[MM[DD[HHMM[SS[.S to .SSSS]]]]][+/-ZZZZ].
#[inline(always)]
pub fn ts(bytes: &[u8]) -> Result<Time, u32> {
    let (digits, rest) = leading_digits(bytes);
    let time = match digits.len() {
        12 | 14 => {
            let (day, hours) = digits.split_at(8);
            let (date, clock) = (date_of(day).ok_or(32_u32)?, clock_of(hours).ok_or(32_u32)?);
            Time { date, clock, ..NO_TIME }
        }
        _ => Time { date: date_of(digits).ok_or(32_u32)?, ..NO_TIME },
    };
    with_tail(time, rest)
}

// The tests alone stand apart from those who judge, whose registers the figures would take.

#[inline(never)]
pub fn is_si(bytes: &[u8]) -> bool {
    si(bytes).is_ok()
}

#[inline(never)]
pub fn is_dt(bytes: &[u8]) -> bool {
    dt(bytes).is_ok()
}

#[inline(never)]
pub fn is_tm(bytes: &[u8]) -> bool {
    tm(bytes).is_ok()
}

#[inline(never)]
pub fn is_ts(bytes: &[u8]) -> bool {
    ts(bytes).is_ok()
}

#[inline(never)]
pub fn fault_of_nm(bytes: &[u8]) -> u32 {
    nm(bytes).err().unwrap_or_default()
}

/// The digits that stand in front, and what stands behind them.
#[inline(always)]
fn leading_digits(bytes: &[u8]) -> (&[u8], &[u8]) {
    let count = bytes.iter().position(|byte| !byte.is_ascii_digit()).unwrap_or(bytes.len());
    bytes.split_at(count)
}

/// A fraction, behind seconds alone, and then an offset; both may be left out.
#[inline(always)]
fn with_tail(mut time: Time, tail: &[u8]) -> Result<Time, u32> {
    let offset = match tail {
        [] => return Ok(time),
        [b'.', behind @ ..] => match leading_digits(behind) {
            (digits, offset) if matches!(digits.len(), 1..=4) && time.clock[2] != NOT_SENT => {
                time.clock[3] = figures(digits, 0) as u32;
                time.digits = digits.len() as u32;
                offset
            }
            _ => return Err(32),
        },
        _ => tail,
    };
    match offset {
        [] => Ok(time),
        [sign @ (b'+' | b'-'), digits @ ..] if digits.len() == 4 => {
            let digits_alone = digits.iter().all(u8::is_ascii_digit);
            if !digits_alone || pair(digits, 0) > 14 || pair(digits, 2) > 59 {
                return Err(32);
            }
            time.offset = [pair(digits, 0), pair(digits, 2)];
            time.sign = *sign;
            Ok(time)
        }
        _ => Err(32),
    }
}

/// A date that exists, of digits that were looked at.
#[inline(always)]
fn date_of(digits: &[u8]) -> Option<[u32; 3]> {
    if !matches!(digits.len(), 4 | 6 | 8) {
        return None;
    }
    let year = pair(digits, 0) * 100 + pair(digits, 2);
    if year == 0 {
        return None;
    }
    if digits.len() == 4 {
        return Some([year, NOT_SENT, NOT_SENT]);
    }
    let month = pair(digits, 4);
    let days = match month {
        2 if year % 4 == 0 && (year % 100 != 0 || year % 400 == 0) => 29,
        2 => 28,
        4 | 6 | 9 | 11 => 30,
        1..=12 => 31,
        _ => return None,
    };
    if digits.len() == 6 {
        return Some([year, month, NOT_SENT]);
    }
    let day = pair(digits, 6);
    (1..=days).contains(&day).then_some([year, month, day])
}

/// A time of day that exists, of digits that were looked at.
#[inline(always)]
fn clock_of(digits: &[u8]) -> Option<[u32; 4]> {
    if !matches!(digits.len(), 2 | 4 | 6) {
        return None;
    }
    let part = |at, most| match digits.len() > at {
        true => Some(pair(digits, at)).filter(|&figure| figure <= most),
        false => Some(NOT_SENT),
    };
    Some([part(0, 23)?, part(2, 59)?, part(4, 59)?, NOT_SENT])
}

#[inline(always)]
fn pair(digits: &[u8], at: usize) -> u32 {
    u32::from(digits[at] - b'0') * 10 + u32::from(digits[at + 1] - b'0')
}

/// The number that some digits write behind those of another, at most 18 in all.
#[inline(always)]
fn figures(digits: &[u8], before: i64) -> i64 {
    digits.iter().fold(before, |number, &digit| number * 10 + i64::from(digit - b'0'))
}
