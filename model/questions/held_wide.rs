//! Messages about as long as the program `ask` holds, by every verb that takes one: up to 65,536
//! bytes the library answers, and beyond that the program itself, with 1 and before anything else
//! (W6). C is told what the library says, so it is asked none of these.

use super::ack_wide::message_of_length;
use super::{ack_question, changed, filled, lookup_question, read_question, structure_question};
use super::{verdict_question, Bytes, LONG_IDS, LOOKUPS};
use crate::ask::{bytes_word, LONGEST_HELD, LONGEST_LINE};

const TIME: &[u8] = b"20240229";
const ID: &[u8] = b"K1";

pub fn wide() -> Vec<Bytes> {
    [by_every_verb(), far_too_long(), acknowledgements(), no_questions()].concat()
}

/// An accepted message of this many bytes.
fn accepted(length: usize) -> Bytes {
    message_of_length(&filled::header_of_oru(&[]), length)
}

/// An accepted message that is held, and a segment more, which cannot stand there: cut to what is
/// held, it would be accepted.
fn accepted_and_more() -> Bytes {
    [&accepted(LONGEST_HELD)[..], b"EVN\r"].concat()
}

/// From both sides; and what cannot be read or found, which is 1 all the same where it cannot be
/// held.
fn by_every_verb() -> Vec<Bytes> {
    let mut lines = Vec::new();
    for length in LONGEST_HELD - 1..=LONGEST_HELD + 1 {
        let message = accepted(length);
        lines.extend(by_judges(&message));
        for verb in LOOKUPS {
            // MSH-7 is a number, a date and a time of day as well, and OBR-1 a sequence number.
            let address = if verb == "si" { [1, 1, 0, 0, 0] } else { [0, 7, 0, 0, 0] };
            lines.push(lookup_question(verb, &message, address));
        }
    }
    let too_long = accepted(LONGEST_HELD + 1);
    lines.extend(by_judges(&changed(&too_long, 0, b'N')));
    lines.push(lookup_question("find", &too_long, [0, 0, 0, 0, 0]));
    lines.push(lookup_question("ts", &too_long, [u64::MAX, 1, 0, 0, 0]));
    lines
}

fn by_judges(message: &[u8]) -> [Bytes; 3] {
    [read_question(message), structure_question(message), verdict_question(message)]
}

/// Besides, a length that comes out as 1 where it is cut to 16 bits or 17, and a line as long as
/// may be.
fn far_too_long() -> Vec<Bytes> {
    let longest = accepted((LONGEST_LINE - b"structure ".len()) / 2);
    let mut lines: Vec<Bytes> = [accepted_and_more(), accepted(131_073), longest]
        .iter()
        .flat_map(|m| by_judges(m))
        .collect();
    lines.push(lookup_question("nm", &accepted_and_more(), [1, 1, 0, 0, 0]));
    lines.push(lookup_question("nm", &accepted(131_073), [1, 1, 0, 0, 0]));
    lines
}

/// Messages that are held and such as are not, with a sound header or none, alone and with 16, 17
/// and 10 besides.
fn acknowledgements() -> Vec<Bytes> {
    let enough = 60;
    let mut lines = Vec::new();
    for length in [LONGEST_HELD, LONGEST_HELD + 1] {
        let message = accepted(length);
        for (time, id, room) in [
            (TIME, ID, enough),
            (TIME, ID, 1),
            (TIME, ID, 0),
            (b"x", ID, enough),
            (TIME, b"", enough),
            (TIME, LONG_IDS[1].as_bytes(), enough),
            (b"", b"", 0),
        ] {
            lines.push(ack_question(&message, time, id, room));
        }
        lines.push(ack_question(&changed(&message, 0, b'N'), TIME, ID, enough));
    }
    lines.push(ack_question(&accepted_and_more(), TIME, ID, enough));
    lines.push(ack_question(&accepted(131_073), TIME, ID, enough));
    lines
}

/// A line that is no question is `?`, however long its message is.
fn no_questions() -> Vec<Bytes> {
    let message = bytes_word(&accepted(LONGEST_HELD + 1));
    let lines = [
        format!("read {message} -"),
        format!("read {message}4"),
        format!("read {message}4g"),
        format!("verdict {message} 0"),
        format!("structures {message}"),
        format!("find {message} 0 7 0 0"),
        format!("find {message} 0 7 0 0 x"),
        format!("nm {message} 0 7 0 0 18446744073709551616"),
        format!("ts {message} 0 -7 0 0 0"),
        format!("ack {message} 32303234 4b 65537"),
        format!("ack {message} 32303234 4b x"),
        format!("ack {message} 3230323 4b 1"),
        format!("ack {message} 32303234 4g 1"),
        format!("ack {message} 32303234 4b"),
    ];
    lines.map(String::into_bytes).to_vec()
}
