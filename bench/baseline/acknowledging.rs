//! The acknowledgement of a message: AA, AE or AR by the verdict, from the sender's own header, and
//! behind AE or AR where the fault stands. Numbers 16, 17, 9 and 10, in this order.

use crate::bytes::{before, find, split_once, state_of, State, COMPONENT, CR, FIELD, REPETITION};
use crate::reading::{check_opening, delimiters_of, Ends, LONGEST_ID, LONGEST_MESSAGE};
use crate::text::escape;
use crate::values::is_ts;
use crate::{verdict_with, Answer, Refusal, Verdict};

/// Each byte of an ID is written as five at most.
const LONGEST_ESCAPED: usize = 5 * LONGEST_ID;

/// There are 4,096 segments at most, and no field behind 14 is judged.
const LONGEST_ERROR: usize = b"ERR|OBX^4096^14^102\r".len();

#[inline]
pub fn acknowledge(message: &[u8], time: &[u8], id: &[u8], buffer: &mut [u8]) -> Answer {
    let refuse = |number| Refusal { number, place: 0 }.into();
    if !is_ts(time) {
        return refuse(16);
    }
    if id.is_empty() || id.len() > LONGEST_ID {
        return refuse(17);
    }
    let Some(end) = find(message, CR) else {
        return refuse(9);
    };
    if check_opening(&message[..=end]).is_err() {
        return refuse(9);
    }
    let delimiters = delimiters_of(message);
    let separator = delimiters[FIELD];
    // Field k of MSH is part k - 1, since MSH-1 is the separator.
    let mut fields: [&[u8]; 13] = [b""; 13];
    let parts = message[..end].split(|&byte| byte == separator);
    for (field, part) in fields[1..].iter_mut().zip(parts) {
        *field = part;
    }
    let first = before(fields[9], delimiters[REPETITION]);
    let (kind, rest) = split_once(first, delimiters[COMPONENT]);
    let event = rest.map_or(&b""[..], |rest| before(rest, delimiters[COMPONENT]));
    let control_id = fields[10];
    if kind == b"ACK"
        || control_id.len() > LONGEST_ID
        || state_of(control_id, &delimiters) != State::Present
    {
        return refuse(9);
    }

    let mut ends = Ends::new();
    let fault = verdict_with(message, &mut ends);
    let (letters, code) = codes_for(&fault);
    let mut error = [0; LONGEST_ERROR];
    let error_length = match fault.number {
        0 => 0,
        _ => put_error(&fault, code, message, &ends, &mut error),
    };
    let (before_event, event) = match state_of(event, &delimiters) {
        State::Present => (&message[4..5], event),
        _ => (&b""[..], &b""[..]),
    };
    let mut escaped = [0; LONGEST_ESCAPED];
    let id_length = escape(&delimiters, id, &mut escaped).length;
    let mark = &message[3..4];
    let pieces: [&[u8]; 30] = [
        &message[..8],
        mark,
        fields[5],
        mark,
        fields[6],
        mark,
        fields[3],
        mark,
        fields[4],
        mark,
        time,
        mark,
        mark,
        b"ACK",
        before_event,
        event,
        mark,
        &escaped[..id_length],
        mark,
        fields[11],
        mark,
        b"2.4",
        &[CR],
        b"MSA",
        mark,
        letters,
        mark,
        control_id,
        &[CR],
        &error[..error_length],
    ];
    let length = pieces.iter().map(|piece| piece.len()).sum();
    if length > LONGEST_MESSAGE || length > buffer.len() {
        return refuse(10);
    }
    put(&pieces, buffer);
    Answer { length, ..Answer::default() }
}

/// Puts the pieces one behind the other to the front of a buffer with room for them.
#[inline(always)]
fn put(pieces: &[&[u8]], buffer: &mut [u8]) {
    let mut rest = buffer;
    for piece in pieces {
        let (front, behind) = rest.split_at_mut(piece.len());
        front.copy_from_slice(piece);
        rest = behind;
    }
}

/// What MSA says of the first fault, and the code of table 0357 that ERR has for it. AR is for a type
/// without a structure, and for MSH-11 or MSH-12 outside its list, which stand in segment 0.
fn codes_for(fault: &Verdict) -> (&'static [u8], &'static [u8]) {
    match (fault.number, fault.place, fault.field) {
        (0, ..) => (b"AA", b""),
        (20, ..) => (b"AR", b"200"),
        (33, 0, 11) => (b"AR", b"202"),
        (33, 0, 12) => (b"AR", b"203"),
        (33, ..) => (b"AE", b"103"),
        (21 | 22, ..) => (b"AE", b"100"),
        (31 | 34 | 35, ..) => (b"AE", b"101"),
        (32 | 36 | 37, ..) => (b"AE", b"102"),
        // It could not be read.
        _ => (b"AE", b"207"),
    }
}

/// Puts ERR and its CR to the front of the room, and gives their length.
fn put_error(
    fault: &Verdict,
    code: &[u8],
    message: &[u8],
    ends: &Ends,
    room: &mut [u8; LONGEST_ERROR],
) -> usize {
    let (name, sequence, field) = match fault.number {
        // The type stands in MSH-9.
        20 => (&message[..3], 1, 9),
        21 | 31..=37 => {
            let (name, sequence) = segment_at(fault.place, message, ends);
            (name, sequence, fault.field)
        }
        // Of 22 and of what could not be read the place is that of no segment.
        _ => (&b""[..], 0, 0),
    };
    let (mark, component) = (&message[3..4], &message[4..5]);
    let (mut sequence_digits, mut field_digits) = ([0; 4], [0; 4]);
    let pieces: [&[u8]; 10] = [
        b"ERR",
        mark,
        name,
        component,
        digits_of(sequence, &mut sequence_digits),
        component,
        digits_of(field, &mut field_digits),
        component,
        code,
        &[CR],
    ];
    put(&pieces, room);
    pieces.iter().map(|piece| piece.len()).sum()
}

/// The name of a segment, and how many segments of that name there are up to it.
fn segment_at<'a>(place: usize, message: &'a [u8], ends: &Ends) -> (&'a [u8], usize) {
    // The one MSH stands in front, and every other segment behind the end of another.
    let ends = ends.first(place);
    let Some((&last, _)) = ends.split_last() else {
        return (&message[..3], 1);
    };
    let from = |end: u32| &message[end as usize + 1..];
    let name = &from(last)[..3];
    (name, ends.iter().filter(|&&end| from(end).starts_with(name)).count())
}

/// The digits of a number below 10,000; none of 0, which stands for what is left empty.
fn digits_of(number: usize, digits: &mut [u8; 4]) -> &[u8] {
    let (mut rest, mut start) = (number, digits.len());
    while rest > 0 {
        start -= 1;
        digits[start] = b'0' + (rest % 10) as u8;
        rest /= 10;
    }
    &digits[start..]
}
