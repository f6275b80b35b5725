//! The large set of the verb `ack`: the acknowledgements of messages as long as may be or one byte
//! longer, faults of late segments, and acknowledgements that are as long as may be themselves.

use super::ack_wide::message_of_length;
use super::error_places::result_with;
use super::filled::header_of_oru;
use super::judge_large::report;
use super::{ack_question, enough_for, long_message, message, stretched, Bytes, LONG_IDS};
use crate::reading::{LONGEST_ID, LONGEST_MESSAGE, MOST_SEGMENTS};

const TIME: &[u8] = b"20240229";
const ID: &[u8] = b"K1";

pub fn large() -> Vec<Bytes> {
    [long_messages(), late_faults(), long_acknowledgements(), long_headers()].concat()
}

/// A question with as much room as is enough.
fn acknowledged(message: &[u8], id: &[u8]) -> Bytes {
    ack_question(message, TIME, id, enough_for(message, TIME, id))
}

/// AA; AE for one byte more, since the header is sound; and control IDs as long as may be.
fn long_messages() -> Vec<Bytes> {
    let with_id = |id, length| stretched(message(&[&header_of_oru(&[(10, id)]), "OBR||"]), length);
    vec![
        acknowledged(&report(LONGEST_MESSAGE), &[0; LONGEST_ID]),
        acknowledged(&report(100_000), &[0; LONGEST_ID + 1]),
        acknowledged(&message_of_length(&header_of_oru(&[]), LONGEST_MESSAGE + 1), ID),
        acknowledged(&with_id(LONG_IDS[0], LONGEST_MESSAGE), LONG_IDS[0].as_bytes()),
        acknowledged(&with_id(LONG_IDS[1], 100_000), ID),
    ]
}

/// AE with ERR for a fault in segments 255, 256, 257 and 4,095, and behind the last that may be.
fn late_faults() -> Vec<Bytes> {
    let mut messages: Vec<Bytes> = [254, 255, 256]
        .map(|count| {
            let behind = message(&["OBX|||1||||||||F||||"]);
            stretched([result_with(count, 3, ""), behind].concat(), 100_000)
        })
        .to_vec();
    messages.push(long_message(MOST_SEGMENTS, &[(MOST_SEGMENTS - 1, "OBX|||1||||||||Q||||")]));
    messages.push(result_with(MOST_SEGMENTS - 2, 14, "x"));
    messages.push(result_with(MOST_SEGMENTS - 1, 14, "x"));
    messages.iter().map(|message| acknowledged(message, ID)).collect()
}

/// As long as may be, with ERR and without one, in a buffer as large and in a larger one; and one
/// byte longer, which is 10 however large the buffer is.
fn long_acknowledgements() -> Vec<Bytes> {
    let mut lines = Vec::new();
    for (behind, room) in [("OBR", LONGEST_MESSAGE), ("OBR|x", LONGEST_MESSAGE + 1)] {
        let message_of = |filling| message(&[&header_of_oru(&[(3, &"x".repeat(filling))]), behind]);
        let longest = LONGEST_MESSAGE - enough_for(&message_of(0), TIME, ID);
        lines.push(ack_question(&message_of(longest), TIME, ID, room));
        lines.push(ack_question(&message_of(longest + 1), TIME, ID, LONGEST_MESSAGE + 1));
    }
    lines
}

/// A header as long as may be is sound, for MSH-13 is not written back; one byte more is 9, and so
/// is what has no end.
fn long_headers() -> Vec<Bytes> {
    let header = |length| stretched(message(&[&header_of_oru(&[(13, "")])]), length);
    vec![
        acknowledged(&header(LONGEST_MESSAGE), ID),
        ack_question(&header(LONGEST_MESSAGE + 1), TIME, ID, 100),
        ack_question(&vec![b'x'; 100_000], TIME, ID, 100),
    ]
}
