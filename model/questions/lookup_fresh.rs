//! Fresh questions of the verbs that look an element up: a random message with a value of the
//! verb's type somewhere in it, asked by the address of that value, by one near it, or by a huge
//! one.

use super::{lookup_question, read_fresh, sound, value_fresh, Bytes, Numbers};
use crate::chance::Chance;
use crate::reading::CR;

pub fn fresh(chance: &mut Chance, verb: &str) -> Bytes {
    if chance.one_in(100) {
        return in_many_segments(chance, verb);
    }
    if chance.one_in(2000) {
        return in_many_bytes(chance, verb);
    }
    let delimiters = sound::random_delimiters(chance);
    let value = value_fresh::random(chance, verb, delimiters);
    let (mut message, mut address) = random_message(chance, delimiters, &value);
    if chance.one_in(4) {
        move_address(chance, &mut address);
    }
    if chance.one_in(12) {
        let times = chance.between(1, 2);
        read_fresh::damage(chance, &mut message, times);
    }
    lookup_question(verb, &message, address)
}

/// Many segments, asked for one of the last, for one that is not there, or for the header.
fn in_many_segments(chance: &mut Chance, verb: &str) -> Bytes {
    let message = read_fresh::many_segments(chance);
    let behind_last = message.iter().filter(|&&byte| byte == CR).count() as u64;
    let segment = match chance.below(6) {
        0 => 0,
        1 => behind_last + 1,
        back => behind_last.saturating_sub(back as u64 - 2),
    };
    let field = chance.below(4) as u64;
    lookup_question(verb, &message, [segment, field, 0, 0, 0])
}

/// About as many bytes as the program holds, asked for any of its segments.
fn in_many_bytes(chance: &mut Chance, verb: &str) -> Bytes {
    let message = read_fresh::long_message(chance);
    let segment = chance.below(250) as u64;
    let field = chance.between(1, 3) as u64;
    lookup_question(verb, &message, [segment, field, 0, 0, 0])
}

/// A message of up to four segments that holds the value, and the value's address.
fn random_message(chance: &mut Chance, delimiters: [u8; 5], value: &[u8]) -> (Bytes, Numbers) {
    let segments = chance.between(1, 4);
    let holder = chance.below(segments);
    let mut message = Vec::new();
    let mut address = [holder as u64, 0, 0, 0, 0];
    for segment in 0..segments {
        let mut fields = other_fields(chance, delimiters);
        if segment == holder {
            let (field, parts) = holding_field(chance, delimiters, value);
            fields.push(field);
            // MSH-3 is the first field behind the delimiters.
            address[1] = fields.len() as u64 + if segment == 0 { 2 } else { 0 };
            address[2..].copy_from_slice(&parts);
            fields.extend(other_fields(chance, delimiters));
        }
        if segment == 0 {
            message.extend(b"MSH");
            message.extend(delimiters);
        } else {
            message.extend(chance.pick(&["PID", "OBX", "Z01"]).as_bytes());
        }
        for field in fields {
            message.push(delimiters[0]);
            message.extend(field);
        }
        message.push(CR);
    }
    (message, address)
}

/// Up to three fields that are not asked for, unless the address goes astray.
fn other_fields(chance: &mut Chance, delimiters: [u8; 5]) -> Vec<Bytes> {
    let count = chance.below(4);
    (0..count).map(|_| other_field(chance, delimiters)).collect()
}

fn other_field(chance: &mut Chance, delimiters: [u8; 5]) -> Bytes {
    match chance.below(3) {
        0 => Vec::new(),
        1 => other_part(chance),
        _ => value_fresh::mixture(chance, delimiters),
    }
}

/// Bytes that hold no separator.
fn other_part(chance: &mut Chance) -> Bytes {
    chance.pick(&["", "", "\"\"", "a", "1", "2024", "-1.5", "x y"]).as_bytes().to_vec()
}

/// The value as a whole field or with other parts around it, and its repetition, component and
/// subcomponent. At a level where the value is all there is the number is 1, or every other time 0.
fn holding_field(chance: &mut Chance, delimiters: [u8; 5], value: &[u8]) -> (Bytes, [u64; 3]) {
    let [_, component, repetition, _, subcomponent] = delimiters;
    let levels = [repetition, component, subcomponent];
    let deepest = chance.below(4);
    let mut field = Vec::new();
    let mut address = [1; 3];
    for level in 0..deepest {
        for _ in 0..chance.below(3) {
            field.extend(other_part(chance));
            field.push(levels[level]);
            address[level] += 1;
        }
    }
    field.extend(value);
    for level in (0..deepest).rev() {
        for _ in 0..chance.below(5) / 3 {
            field.push(levels[level]);
            field.extend(other_part(chance));
        }
    }
    if chance.one_in(2) {
        address[deepest..].fill(0);
    }
    (field, address)
}

/// Another number at one or two places: near the one that was there, 0, or huge.
fn move_address(chance: &mut Chance, address: &mut Numbers) {
    for _ in 0..chance.between(1, 2) {
        let place = chance.below(address.len());
        let number = address[place];
        address[place] = match chance.below(10) {
            0..=2 => number.saturating_add(1),
            3..=4 => number.saturating_sub(1),
            5 => 0,
            6..=7 => chance.below(5) as u64,
            _ => huge_number(chance, number),
        };
    }
}

/// A number that comes out as this one, or as 0, where it is cut to fewer bits; or any at all.
fn huge_number(chance: &mut Chance, number: u64) -> u64 {
    let power = 1u64 << chance.pick(&[8, 16, 31, 32, 33, 63]);
    match chance.below(5) {
        0..=1 => number.saturating_add(power),
        2 => power,
        3 => u64::MAX - chance.below(3) as u64,
        _ => chance.below(usize::MAX) as u64,
    }
}
