//! Fresh questions of the verbs `escape` and `unescape`: random texts of bytes that have a meaning,
//! texts as they are written, whole and damaged, and buffers about as large as is enough.

use super::{sound, text_question, Bytes};
use crate::ask::MOST_ROOM;
use crate::chance::Chance;
use crate::text::{self, Delimiters};

/// The delimiter that opens and closes a sequence.
const ESCAPE: usize = 3;

pub fn fresh(chance: &mut Chance, verb: &str) -> Bytes {
    let mut delimiters = sound::random_delimiters(chance);
    let long = chance.one_in(3000);
    let text = if long { long_text(chance, delimiters) } else { random(chance, verb, delimiters) };
    let room = random_room(chance, verb, &text, delimiters);
    if chance.one_in(25) {
        damage_delimiters(chance, &mut delimiters);
    }
    text_question(verb, &text, &delimiters, room)
}

/// Something for this verb to write, up to some sixty bytes.
fn random(chance: &mut Chance, verb: &str, delimiters: Delimiters) -> Bytes {
    match chance.below(20) {
        0 => chance.pick(&["", "\"", "\"\"", "\"\"\"", "\"\" "]).as_bytes().to_vec(),
        1 => b"\"\"".to_vec(),
        2..=5 => mixture(chance, delimiters),
        _ if verb == "escape" => plain_text(chance, delimiters),
        6..=12 => written_text(chance, delimiters),
        13..=16 => pieces(chance, delimiters),
        _ => {
            let mut text = pieces(chance, delimiters);
            damage(chance, &mut text, delimiters);
            text
        }
    }
}

/// Bytes of every kind without a plan: sequences open, and few of them close well.
fn mixture(chance: &mut Chance, delimiters: Delimiters) -> Bytes {
    let length = chance.below(12);
    (0..length).map(|_| telling_byte(chance, delimiters)).collect()
}

pub fn telling_byte(chance: &mut Chance, delimiters: Delimiters) -> u8 {
    match chance.below(10) {
        0..=2 => delimiters[ESCAPE],
        3 => chance.pick(&delimiters),
        4..=6 => chance.pick(b"0123456789ABCDEFabcdefXXXx"),
        7 => chance.pick(b"FSRETfsretHNXCMZ"),
        8 => chance.pick(b"\"\" .a\xA0\xE9\xFF|^~\\&"),
        _ if chance.one_in(2) => chance.pick(b"\r\n\t\0\x1F\x7F\x80\x9F"),
        _ => chance.byte(),
    }
}

/// What somebody has to say: mostly allowed bytes, with delimiters and others among them.
fn plain_text(chance: &mut Chance, delimiters: Delimiters) -> Bytes {
    let length = chance.below(25);
    (0..length)
        .map(|_| match chance.below(8) {
            0..=1 => chance.pick(&delimiters),
            2 => chance.pick(b"\r\r\n\t\0\x1F\x7F\x80\x9F"),
            3 => chance.byte(),
            4 => chance.pick(b"\"\\|^~&X"),
            _ => sound::random_content(chance),
        })
        .collect()
}

/// Text as `escape` writes it, so that the question is for the way back; or once or twice damaged.
fn written_text(chance: &mut Chance, delimiters: Delimiters) -> Bytes {
    let plain = plain_text(chance, delimiters);
    let mut written = written(&plain, "escape", delimiters);
    for _ in 0..chance.below(5) / 3 {
        damage(chance, &mut written, delimiters);
    }
    written
}

/// What the verb writes with room enough, or nothing where it refuses.
fn written(text: &[u8], verb: &str, delimiters: Delimiters) -> Bytes {
    let written = match verb {
        "escape" => text::escape(text, delimiters, usize::MAX),
        _ => text::unescape(text, delimiters, usize::MAX),
    };
    written.unwrap_or_default()
}

/// Sequences and plain bytes in any order, sound until one of the seldom pieces is not.
fn pieces(chance: &mut Chance, delimiters: Delimiters) -> Bytes {
    let count = chance.below(9);
    (0..count).flat_map(|_| piece(chance, delimiters)).collect()
}

fn piece(chance: &mut Chance, delimiters: Delimiters) -> Bytes {
    match chance.below(24) {
        0..=7 => sequence(delimiters, &[chance.pick(b"FSRET")]),
        8..=13 => hex_sequence(chance, delimiters),
        14..=21 => plain_bytes(chance, delimiters),
        22 => nested_sequence(chance, delimiters),
        _ => odd_sequence(chance, delimiters),
    }
}

pub fn sequence(delimiters: Delimiters, inside: &[u8]) -> Bytes {
    let escape = delimiters[ESCAPE];
    [&[escape], inside, &[escape]].concat()
}

/// One to five pairs of digits of either case, seldom a digit less.
fn hex_sequence(chance: &mut Chance, delimiters: Delimiters) -> Bytes {
    let pairs = chance.between(1, 5);
    let mut inside = b"X".to_vec();
    for _ in 0..2 * pairs {
        inside.push(chance.pick(b"0123456789ABCDEFabcdef"));
    }
    if chance.one_in(20) {
        inside.pop();
    }
    sequence(delimiters, &inside)
}

/// Up to four bytes that stand for themselves.
fn plain_bytes(chance: &mut Chance, delimiters: Delimiters) -> Bytes {
    let count = chance.between(1, 4);
    let plain = (0..count).map(|_| chance.pick(b"abXFE09\"\" .\xA0\xFF|^~\\&"));
    plain.filter(|byte| !delimiters.contains(byte)).collect()
}

/// The escape of a sequence, which gives that sequence back and no more.
fn nested_sequence(chance: &mut Chance, delimiters: Delimiters) -> Bytes {
    let inner = match chance.below(2) {
        0 => hex_sequence(chance, delimiters),
        _ => sequence(delimiters, &[chance.pick(b"FSRET")]),
    };
    written(&inner, "escape", delimiters)
}

/// A sequence that is none of ours, or not closed, or none at all.
fn odd_sequence(chance: &mut Chance, delimiters: Delimiters) -> Bytes {
    match chance.below(4) {
        0 => vec![delimiters[ESCAPE]],
        1 => vec![telling_byte(chance, delimiters)],
        2 => {
            let insides = ["", "X", "x41", "f", "H", "N", ".br", "C2842", "Z", "FF", "X4g", "|"];
            sequence(delimiters, chance.pick(&insides).as_bytes())
        }
        _ => {
            let length = chance.below(4);
            let inside: Bytes = (0..length).map(|_| telling_byte(chance, delimiters)).collect();
            sequence(delimiters, &inside)
        }
    }
}

/// One byte changed, removed or put in, or the end cut off.
pub fn damage(chance: &mut Chance, text: &mut Bytes, delimiters: Delimiters) {
    let place = chance.below(text.len() + 1);
    let byte = telling_byte(chance, delimiters);
    match chance.below(4) {
        0 if place < text.len() => text[place] = byte,
        1 if place < text.len() => drop(text.remove(place)),
        2 => text.truncate(place),
        _ => text.insert(place, byte),
    }
}

/// One or two of them not permitted, or equal to another.
pub fn damage_delimiters(chance: &mut Chance, delimiters: &mut Delimiters) {
    for _ in 0..chance.between(1, 2) {
        let place = chance.below(delimiters.len());
        delimiters[place] = match chance.below(4) {
            0 => chance.byte(),
            1 => chance.pick(b"\"+-.09AZaz \r\n\0\x7F\x80\xA0\xFF"),
            _ => chance.pick(delimiters),
        };
    }
}

/// Mostly about as much as is enough; or as the text itself is long, none, or more.
fn random_room(chance: &mut Chance, verb: &str, text: &[u8], delimiters: Delimiters) -> usize {
    let enough = written(text, verb, delimiters).len();
    let room = match chance.below(16) {
        0..=6 => enough,
        7..=9 => enough.saturating_sub(1),
        10..=11 => enough + 1,
        12 => chance.below(enough + 1),
        13 => text.len(),
        14 => chance.pick(&[0, 0, 1, 2, 255, 256, 257]),
        _ => enough + chance.below(20),
    };
    room.min(MOST_ROOM as usize)
}

/// Up to as many bytes as a line can hold, of one kind or of all.
fn long_text(chance: &mut Chance, delimiters: Delimiters) -> Bytes {
    let length = chance.pick(&[13_000, 21_845, 21_846, 65_535, 65_536, 65_537, 90_000]);
    let mut text = Vec::new();
    match chance.below(4) {
        0 => text.resize(length, b'a'),
        1 => text = sequence(delimiters, &[b"X", &b"4a".repeat(length / 2)[..]].concat()),
        _ => {
            while text.len() < length {
                text.extend(written_text(chance, delimiters));
                text.extend(plain_bytes(chance, delimiters));
            }
        }
    }
    if chance.one_in(4) {
        damage(chance, &mut text, delimiters);
    }
    text
}
