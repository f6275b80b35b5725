//! Fresh questions of the verb `read`: random messages, mostly sound ones with some damage done to
//! them, mixed so that every number from 0 to 7 comes up often, and 8, for its length, now and then.

use super::{latin, message, read_question, read_stored, sound, Bytes};
use crate::ask::LONGEST_HELD;
use crate::chance::Chance;
use crate::reading::{CR, MOST_SEGMENTS};

/// Bytes at the edges of the paper's classes, where a slip shows.
const TELLING: &[u8] = b"\r\r\r\n\t\0\x1F \x7F\x80\x9F\xA0\xFF|^~\\&\"+-./09:@AZ[`az{}MSH";

pub fn fresh(chance: &mut Chance) -> Bytes {
    let message = match chance.below(100) {
        0..=59 => damaged_message(chance),
        60..=71 => several_faults(chance),
        72..=81 => odd_header(chance),
        82..=85 => few_bytes(chance),
        86..=88 => Vec::new(),
        89..=98 => many_segments(chance),
        _ if chance.one_in(4) => long_message(chance),
        _ => sound::random(chance),
    };
    let mut question = read_question(&message);
    if chance.one_in(8) {
        // Behind the verb and its space, digits of either case.
        for digit in &mut question[5..] {
            if chance.one_in(2) {
                digit.make_ascii_uppercase();
            }
        }
    }
    question
}

/// A sound message, damaged up to four times.
pub fn damaged_message(chance: &mut Chance) -> Bytes {
    let mut message = sound::random(chance);
    let times = chance.below(5);
    damage(chance, &mut message, times);
    message
}

/// Does one of six kinds of damage, `times` times.
pub fn damage(chance: &mut Chance, message: &mut Bytes, times: usize) {
    for _ in 0..times {
        let place = random_place(chance, message);
        if place >= message.len() {
            message.insert(place, telling_byte(chance));
            continue;
        }
        match chance.below(16) {
            0..=3 => message[place] = telling_byte(chance),
            4..=6 => message.insert(place, telling_byte(chance)),
            7..=9 => drop(message.remove(place)),
            10..=11 => {
                let other = random_place(chance, message).min(message.len() - 1);
                message.swap(place, other);
            }
            12 => message.truncate(place),
            _ => double_segment(chance, message),
        }
    }
}

fn telling_byte(chance: &mut Chance) -> u8 {
    if chance.one_in(4) {
        chance.byte()
    } else {
        chance.pick(TELLING)
    }
}

/// A place of the message or its end: often one of the first bytes of the header or of a segment.
fn random_place(chance: &mut Chance, message: &[u8]) -> usize {
    let place = match chance.below(8) {
        0 => chance.below(10),
        1..=4 => chance.pick(&segment_starts(message)) + chance.below(5),
        _ => chance.below(message.len() + 1),
    };
    place.min(message.len())
}

/// Where a segment begins: at the start and behind each CR, the end among them.
fn segment_starts(message: &[u8]) -> Vec<usize> {
    let behind_cr = (0..message.len()).filter(|&at| message[at] == CR).map(|at| at + 1);
    std::iter::once(0).chain(behind_cr).collect()
}

/// Puts a copy of one segment, the header every third time, at the start of another or at the end.
fn double_segment(chance: &mut Chance, message: &mut Bytes) {
    let starts = segment_starts(message);
    let start = if chance.one_in(3) { 0 } else { chance.pick(&starts) };
    let copy: Bytes =
        message[start..].split_inclusive(|&byte| byte == CR).next().unwrap_or(&[]).to_vec();
    let place = chance.pick(&starts);
    message.splice(place..place, copy);
}

/// Some of the faults of the stored questions at once; too many segments very seldom, for its
/// length.
fn several_faults(chance: &mut Chance) -> Bytes {
    let faults = read_stored::faults();
    let too_many = faults.len() - 1;
    let mut segments = read_stored::plain();
    // Beginning behind some of them lets the later numbers be seen as often as the earlier ones.
    let first = chance.below(too_many);
    for fault in &faults[first..too_many] {
        if chance.one_in(4) {
            fault(&mut segments);
        }
    }
    if chance.one_in(480) {
        faults[too_many](&mut segments);
    }
    segments.concat()
}

/// A header of random delimiters, most of them permitted, with or without a segment behind it.
fn odd_header(chance: &mut Chance) -> Bytes {
    let mut header = latin("MSH");
    for _ in 0..5 {
        header.push(match chance.below(12) {
            0 => telling_byte(chance),
            1 => chance.pick(b"\"+-."),
            _ => chance.pick(b"!#$%&'()*,/:;<=>?@[\\]^_`{|}~"),
        });
    }
    let separator = header[3];
    match chance.below(8) {
        0 => header.push(telling_byte(chance)),
        1..=3 => {}
        _ => header.push(separator),
    }
    header.push(CR);
    if chance.one_in(2) {
        header.extend(latin("PID"));
        header.push(if chance.one_in(4) { telling_byte(chance) } else { separator });
        header.push(CR);
    }
    header
}

/// Up to 14 bytes: a piece of a header, or bytes that have no meaning.
fn few_bytes(chance: &mut Chance) -> Bytes {
    let length = chance.below(15);
    if chance.one_in(2) {
        return (0..length).map(|_| telling_byte(chance)).collect();
    }
    let mut piece = message(&[r"MSH|^~\&|", "PID"]);
    piece.truncate(length);
    piece
}

/// About 256, which was the most before W6; seldom, for their length, about as many as may be.
pub fn many(chance: &mut Chance) -> usize {
    if chance.one_in(40) {
        MOST_SEGMENTS
    } else {
        256
    }
}

/// Many segments, now and then with a bad one near the last.
pub fn many_segments(chance: &mut Chance) -> Bytes {
    let mut segments = vec![r"MSH|^~\&".to_string()];
    let many = many(chance);
    let count = chance.between(many - 4, many + 6);
    while segments.len() < count {
        segments.push(if chance.one_in(8) {
            sound::random_name(chance)
        } else {
            "ZZZ".to_string()
        });
    }
    if chance.one_in(3) {
        let at = chance.between(many - 5, count - 1);
        segments[at] = chance.pick(&["zzz", "MSH", "MSH|", "", "ZZ", "MSHx"]).to_string();
    }
    let segments: Vec<&str> = segments.iter().map(String::as_str).collect();
    let mut message = message(&segments);
    let times = chance.below(6) / 4;
    damage(chance, &mut message, times);
    message
}

/// About as many bytes as the program holds, or half of that, in segments of random length.
pub fn long_message(chance: &mut Chance) -> Bytes {
    let nearest = [LONGEST_HELD - 1, LONGEST_HELD, LONGEST_HELD + 1, 33_000];
    let length = chance.pick(&nearest);
    let mut message = message(&[r"MSH|^~\&|"]);
    while message.len() < length - 1 {
        message.extend(latin("NTE|"));
        let filling = chance.between(100, 500);
        message.extend((0..filling).map(|_| sound::random_content(chance)));
        message.push(CR);
    }
    message.truncate(length - 1);
    // What the cut has left of the last segment may be too little for a name: then it is made part
    // of the segment before it.
    for at in length - 5..length - 1 {
        if message[at] == CR {
            message[at] = b'A';
        }
    }
    message.push(CR);
    let times = chance.below(4) / 2;
    damage(chance, &mut message, times);
    message
}
