//! Random contents for fresh lookups: numbers and times of every type, mostly of the right form and
//! often at a limit, some with damage done to them; and mixtures of separators, quotes and letters.

use super::Bytes;
use crate::chance::Chance;

/// Something to ask this verb for.
pub fn random(chance: &mut Chance, verb: &str, delimiters: [u8; 5]) -> Bytes {
    let kind = chance.below(16);
    if verb == "find" || kind == 0 {
        return mixture(chance, delimiters);
    }
    if kind == 1 {
        return chance.pick(&["", "\"\""]).as_bytes().to_vec();
    }
    // Now and then the value of another type.
    let verb = if kind == 2 { chance.pick(&["nm", "si", "dt", "tm", "ts"]) } else { verb };
    let mut value = match verb {
        "nm" => numeric(chance),
        "si" => sequence_number(chance),
        "dt" => date(chance),
        "tm" => time_of_day(chance),
        _ => time_stamp(chance),
    }
    .into_bytes();
    if chance.one_in(5) {
        damage(chance, &mut value, delimiters);
    }
    value
}

/// Up to eight bytes of separators, quotes, letters and digits; or null, which chance alone would
/// seldom make.
pub fn mixture(chance: &mut Chance, delimiters: [u8; 5]) -> Bytes {
    if chance.one_in(8) {
        return b"\"\"".to_vec();
    }
    let [_, component, repetition, escape, subcomponent] = delimiters;
    let often = [component, repetition, subcomponent];
    let seldom = [escape, b'"', b'"', b'a', b'1', b' ', 0xE9];
    let only_separators = chance.one_in(8);
    let length = chance.below(9);
    (0..length)
        .map(|_| {
            if only_separators || chance.below(5) < 2 {
                chance.pick(&often)
            } else {
                chance.pick(&seldom)
            }
        })
        .collect()
}

/// One byte changed, removed or put in, or the end cut off.
fn damage(chance: &mut Chance, value: &mut Bytes, delimiters: [u8; 5]) {
    let telling = [&b"0123456789++--.. :/a\"\xB2"[..], &delimiters[1..]].concat();
    let place = chance.below(value.len() + 1);
    let byte = chance.pick(&telling);
    match chance.below(4) {
        0 if place < value.len() => value[place] = byte,
        1 if place < value.len() => drop(value.remove(place)),
        2 => value.truncate(place),
        _ => value.insert(place, byte),
    }
}

fn digits(chance: &mut Chance, count: usize) -> String {
    let digits = chance.pick(&["0123456789", "0123456789", "09", "0", "9"]);
    (0..count).map(|_| char::from(chance.pick(digits.as_bytes()))).collect()
}

/// From 1 to 20 digits, often about 18; very seldom as many as fill a message.
fn numeric(chance: &mut Chance) -> String {
    let count = match chance.below(8) {
        0..=3 => chance.between(1, 6),
        4..=5 => chance.between(16, 20),
        6 => chance.between(1, 20),
        _ if chance.one_in(500) => 32_000,
        _ => 18,
    };
    let mut text = digits(chance, count);
    if count > 1 && chance.one_in(2) {
        text.insert(chance.between(1, count - 1), '.');
    }
    let sign = chance.pick(&["", "", "-", "-", "+"]);
    format!("{sign}{text}")
}

fn sequence_number(chance: &mut Chance) -> String {
    let count = chance.pick(&[1, 1, 2, 3, 4, 4, 5, 6]);
    digits(chance, count)
}

/// Digits of two, from `low` to `high` and seldom one outside.
fn pair(chance: &mut Chance, low: usize, high: usize) -> String {
    let number = match chance.below(12) {
        0 => low,
        1 => high,
        2 if chance.one_in(2) => high + 1,
        3 if chance.one_in(4) => chance.below(100),
        4 if chance.one_in(4) => low.saturating_sub(1),
        _ => chance.between(low, high),
    };
    format!("{number:02}")
}

/// A date of any length. A full one is often near the end of a month, of a year of any kind, or one
/// of all the days from 0 to 32 of the months from 0 to 13.
fn date(chance: &mut Chance) -> String {
    match chance.below(6) {
        0 => year(chance),
        1 => year(chance) + &pair(chance, 1, 12),
        _ => full_date(chance),
    }
}

fn year(chance: &mut Chance) -> String {
    let year = match chance.below(8) {
        0..=3 => chance.pick(&[1900, 2000, 2023, 2024]),
        4 => chance.pick(&[1, 1, 4, 100, 400, 1600, 1700, 2100, 2400, 9996, 9999]),
        5 if chance.one_in(4) => 0,
        5 => 100 * chance.between(1, 99),
        _ => chance.between(1, 9999),
    };
    format!("{year:04}")
}

fn full_date(chance: &mut Chance) -> String {
    let year = year(chance);
    let (month, day) = match chance.below(8) {
        0..=1 => (chance.between(0, 13), chance.between(0, 32)),
        2 => (2, chance.between(28, 30)),
        3..=4 => (chance.between(1, 12), chance.between(28, 31)),
        _ => (chance.between(1, 12), chance.between(1, 28)),
    };
    format!("{year}{month:02}{day:02}")
}

/// From hours alone to the fraction, with an offset every other time.
fn time_of_day(chance: &mut Chance) -> String {
    let hour = pair(chance, 0, 23);
    if chance.one_in(5) {
        return hour + &offset(chance);
    }
    hour + &behind_hour(chance)
}

fn behind_hour(chance: &mut Chance) -> String {
    let mut text = pair(chance, 0, 59);
    if !chance.one_in(3) {
        text += &pair(chance, 0, 59);
        text += &fraction(chance);
    } else if chance.one_in(12) {
        // A fraction of minutes, which is none.
        text += &fraction(chance);
    }
    text + &offset(chance)
}

fn fraction(chance: &mut Chance) -> String {
    if chance.one_in(2) {
        return String::new();
    }
    let count = if chance.one_in(12) { chance.pick(&[0, 5]) } else { chance.between(1, 4) };
    format!(".{}", digits(chance, count))
}

fn offset(chance: &mut Chance) -> String {
    if chance.one_in(2) {
        return String::new();
    }
    let sign = chance.pick(&["+", "-"]);
    format!("{sign}{}{}", pair(chance, 0, 14), pair(chance, 0, 59))
}

/// A date with or without an offset, or a full date and a time, seldom one that stops at the hour.
fn time_stamp(chance: &mut Chance) -> String {
    if chance.one_in(4) {
        return date(chance) + &offset(chance);
    }
    let day = full_date(chance);
    let hour = pair(chance, 0, 23);
    if chance.one_in(20) {
        return day + &hour + &offset(chance);
    }
    day + &hour + &behind_hour(chance)
}
