//! The wide set of the verb `read`: every byte value at every kind of place; messages of as many
//! segments as may be, from both sides of the limit; and messages as long as the program holds.

use super::read_stored::{faults, with_faults};
use super::{changed, message, read_question, stretched, Bytes};
use crate::ask::LONGEST_HELD;
use crate::reading::MOST_SEGMENTS;

pub fn wide() -> Vec<Bytes> {
    let every_byte: Bytes = (0..=0xFF).collect();
    at_every_place(&every_byte).iter().map(|message| read_question(message)).collect()
}

/// What is as large as a limit.
pub fn limits() -> Vec<Bytes> {
    let messages = [long_messages(), segment_counts(), too_many_and_a_fault()];
    messages.concat().iter().map(|message| read_question(message)).collect()
}

/// The message with each of these bytes at `place`.
fn with_bytes(message: &[u8], place: usize, bytes: &[u8]) -> Vec<Bytes> {
    bytes.iter().map(|&byte| changed(message, place, byte)).collect()
}

/// Each of these bytes at every kind of place: in the header and in a later segment.
pub fn at_every_place(bytes: &[u8]) -> Vec<Bytes> {
    [in_the_header(bytes), in_a_later_segment(bytes)].concat()
}

/// At the name, at each delimiter, at byte 8, in the content, at the end. Byte 3 is judged with CR
/// at byte 8, with `|` there still, and with itself there.
fn in_the_header(bytes: &[u8]) -> Vec<Bytes> {
    let shortest = message(&[r"MSH|^~\&"]);
    let with_field = message(&[r"MSH|^~\&|"]);
    let with_content = message(&[r"MSH|^~\&|A"]);
    let mut messages = Vec::new();
    for place in 0..8 {
        messages.extend(with_bytes(&shortest, place, bytes));
    }
    messages.extend(with_bytes(&with_field, 3, bytes));
    messages.extend(bytes.iter().map(|&byte| changed(&changed(&with_field, 3, byte), 8, byte)));
    messages.extend(with_bytes(&with_field, 8, bytes));
    messages.extend(with_bytes(&with_content, 9, bytes));
    messages.extend(with_bytes(&with_field, 9, bytes));
    messages
}

/// At each byte of the name, behind the name, in the content, at the end.
fn in_a_later_segment(bytes: &[u8]) -> Vec<Bytes> {
    let name_alone = message(&[r"MSH|^~\&", "PID"]);
    let with_field = message(&[r"MSH|^~\&", "PID|"]);
    let with_content = message(&[r"MSH|^~\&", "PID|1"]);
    let mut messages = Vec::new();
    for place in 9..13 {
        messages.extend(with_bytes(&name_alone, place, bytes));
    }
    messages.extend(with_bytes(&with_field, 12, bytes));
    messages.extend(with_bytes(&with_content, 13, bytes));
    messages
}

/// The longest message that the program holds, of as many segments as may be, one byte less, and
/// with a fault of the last byte.
fn long_messages() -> Vec<Bytes> {
    let last = MOST_SEGMENTS - 1;
    let of_length = |length| stretched(of_segments(MOST_SEGMENTS, &[(last, "ZZZ|")]), length);
    let longest = of_length(LONGEST_HELD);
    let with_fault = |byte| changed(&longest, LONGEST_HELD - 1, byte);
    vec![of_length(LONGEST_HELD - 1), with_fault(b'\n'), with_fault(b'x'), longest]
}

/// A header and as many `ZZZ` as make `count` segments, with others at some of their numbers.
fn of_segments(count: usize, others: &[(usize, &'static str)]) -> Bytes {
    let mut segments = vec![r"MSH|^~\&"];
    segments.resize(count, "ZZZ");
    for &(at, segment) in others {
        segments[at] = segment;
    }
    message(&segments)
}

/// One segment too many, whatever it holds, with bad ones at its left and at its right.
fn segment_counts() -> Vec<Bytes> {
    let last = MOST_SEGMENTS - 1;
    vec![
        of_segments(last, &[]),
        of_segments(last + 1, &[]),
        of_segments(last + 2, &[]),
        of_segments(last + 3, &[(last + 2, "zzz")]),
        of_segments(last + 1, &[(last, "zzz")]),
        of_segments(last + 1, &[(last, "MSH")]),
        of_segments(last + 2, &[(last + 1, "zzz")]),
        of_segments(last + 2, &[(last + 1, "MSH|")]),
        of_segments(last + 2, &[(last + 1, "")]),
        of_segments(last + 2, &[(last, "zzz"), (last + 1, "MSH|")]),
        of_segments(last + 2, &[(last, "MSH|"), (last + 1, "zzz")]),
        of_segments(last + 2, &[(last, ""), (1, "MSH|")]),
        of_segments(last + 2, &[(1, "zzz")]),
    ]
}

/// Too many segments, alone and with each other fault.
fn too_many_and_a_fault() -> Vec<Bytes> {
    let mut faults = faults();
    let too_many = faults.pop().expect("there are faults");
    let mut messages = vec![with_faults(&[too_many])];
    messages.extend(faults.iter().map(|&fault| with_faults(&[fault, too_many])));
    messages
}
