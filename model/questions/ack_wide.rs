//! The wide set of the verb `ack`: every telling content in every field of the header, every byte
//! in an ID and at every place of a header, every room for messages as they are sent; every number
//! at every place that can give it, and with those that are answered AR; every sequence that ERR
//! can tell, each number with every room about ERR, and every short list of names; and messages of
//! about as many segments, and acknowledgements and lines about as long, as may be or as the
//! program holds.

use super::error_places::{self, delimited, DELIMITERS};
use super::verdict_wide::TELLING;
use super::{
    ack_question, changed, enough_for, filled, lifelike, message, refused, stretched, Bytes,
};
use crate::ask::{LONGEST_HELD, LONGEST_LINE, MOST_ROOM};
use crate::reading::{allowed, CR, MOST_SEGMENTS};

const TIME: &[u8] = b"20240229";
const ID: &[u8] = b"K1";

pub fn wide() -> Vec<Bytes> {
    let questions = [
        telling_contents(),
        types_and_control_ids(),
        telling_times(),
        telling_ids(),
        every_byte_in_an_id(),
        every_byte_in_a_header(),
        cut_messages(),
        every_room(),
        letters(),
        letters_with_rooms(),
        every_byte_that_rejects(),
        rooms_about_errors(),
        every_sequence(),
        faults_of_later_segments(),
        short_lists(),
        long_lines(),
    ];
    questions.concat()
}

/// What is as large as a limit of the library, or as the program holds.
pub fn limits() -> Vec<Bytes> {
    let questions = [
        long_headers(),
        long_headers_and_errors(),
        long_messages(),
        long_messages_that_reject(),
        late_sequences(),
        too_many_with_rooms(),
    ];
    questions.concat()
}

/// A question with one byte of room more than enough, where there is so much.
fn acknowledged(message: &[u8], time: &[u8], id: &[u8]) -> Bytes {
    let length = enough_for(message, time, id);
    ack_question(message, time, id, (length + 1).min(MOST_ROOM as usize))
}

/// Questions with as much room as is enough, and with one byte less.
fn exactly_and_less(message: &[u8]) -> [Bytes; 2] {
    let enough = enough_for(message, TIME, ID);
    [enough, enough.saturating_sub(1)].map(|room| ack_question(message, TIME, ID, room))
}

fn telling_contents() -> Vec<Bytes> {
    let mut lines = Vec::new();
    for field in [3, 4, 5, 6, 7, 8, 9, 10, 11, 12, 13] {
        for content in TELLING {
            let header = filled::header_of_oru(&[(field, content)]);
            lines.push(acknowledged(&message(&[&header, "OBR"]), TIME, ID));
        }
    }
    lines
}

/// Every two telling contents in MSH-9 and MSH-10.
fn types_and_control_ids() -> Vec<Bytes> {
    let mut lines = Vec::new();
    for message_type in ["", "ACK", "ACK^R01", "ACK~x", "ORU^", "ORU^\"\"", "ORU^&", "ORU^R01&x"] {
        for control_id in TELLING {
            let header = format!(r"MSH|^~\&|||||||{message_type}|{control_id}");
            lines.push(acknowledged(&message(&[&header]), TIME, ID));
        }
    }
    lines
}

fn telling_times() -> Vec<Bytes> {
    let accepted = message(&[&filled::header_of_oru(&[]), "OBR"]);
    TELLING.map(|time| acknowledged(&accepted, time.as_bytes(), ID)).to_vec()
}

/// Every telling content as an ID, and every length up to some more than the 20 bytes that were the
/// most before W6, and about what may be now.
fn telling_ids() -> Vec<Bytes> {
    let accepted = message(&[&filled::header_of_oru(&[]), "OBR"]);
    let mut lines = TELLING.map(|id| acknowledged(&accepted, TIME, id.as_bytes())).to_vec();
    for byte in *b"A|\\\"\r\xFF" {
        for length in (0..=22).chain(196..=202) {
            lines.push(acknowledged(&accepted, TIME, &vec![byte; length]));
        }
    }
    lines
}

/// Every byte alone, and behind another one, with delimiters of two kinds.
fn every_byte_in_an_id() -> Vec<Bytes> {
    let mut lines = Vec::new();
    for header in [r"MSH|^~\&||||||||1", "MSH#$%*@########1"] {
        let message = message(&[header]);
        for byte in 0..=0xFF {
            lines.push(acknowledged(&message, TIME, &[byte]));
            lines.push(acknowledged(&message, TIME, &[b'"', byte]));
        }
    }
    lines
}

/// Every byte at every place of a short header, and behind it.
fn every_byte_in_a_header() -> Vec<Bytes> {
    let header = message(&[r"MSH|^~\&|a||||||x^y|1", "OBR"]);
    let mut lines = Vec::new();
    for place in 0..header.len() {
        for byte in 0..=0xFF {
            lines.push(acknowledged(&changed(&header, place, byte), TIME, ID));
        }
    }
    lines
}

/// Messages as they are sent, cut at every byte.
fn cut_messages() -> Vec<Bytes> {
    let mut lines = Vec::new();
    for whole in lifelike::messages() {
        for length in 0..=whole.len() {
            lines.push(acknowledged(&whole[..length], TIME, ID));
        }
    }
    lines
}

/// From no room to two bytes more than enough.
fn every_room() -> Vec<Bytes> {
    let mut lines = Vec::new();
    for whole in [lifelike::chest_report(), lifelike::merge()] {
        for id in [ID, b"|", b"\r\"\""] {
            let length = enough_for(&whole, TIME, id);
            lines.extend((0..=length + 2).map(|room| ack_question(&whole, TIME, id, room)));
        }
    }
    lines
}

/// Messages of each letter, with delimiters of two kinds.
fn letters() -> Vec<Bytes> {
    let messages = [
        refused::types(),
        refused::faults_of_a_header(),
        refused::processing_ids_and_versions(),
        refused::admissions(),
        refused::telling_places(),
    ];
    let mut lines = Vec::new();
    for message in messages.concat() {
        for delimiters in DELIMITERS {
            lines.push(acknowledged(&delimited(&message, delimiters), TIME, ID));
        }
    }
    lines
}

/// More of them, each with as much room as is enough, with one byte more, and with one byte less.
fn letters_with_rooms() -> Vec<Bytes> {
    let messages = [refused::faults_behind_headers(), refused::control_ids()];
    let mut lines = Vec::new();
    for message in messages.concat() {
        for delimiters in DELIMITERS {
            let message = delimited(&message, delimiters);
            let enough = enough_for(&message, TIME, ID);
            for room in enough.saturating_sub(1)..=enough + 1 {
                lines.push(ack_question(&message, TIME, ID, room));
            }
        }
    }
    lines
}

/// Every byte that may be there at each place of MSH-9, MSH-11 and MSH-12 of a message that is
/// accepted.
fn every_byte_that_rejects() -> Vec<Bytes> {
    let accepted = message(&[r"MSH|^~\&|||||2024||ORU^R01|1|P|2.4", "OBR"]);
    let mut lines = Vec::new();
    for place in [19, 20, 21, 22, 23, 24, 25, 29, 31, 32, 33] {
        for byte in (0..=0xFF).filter(|&byte| allowed(byte)) {
            lines.push(acknowledged(&changed(&accepted, place, byte), TIME, ID));
        }
    }
    lines
}

/// Each number and each code with every room from what would do without any ERR, less one byte, up
/// to one byte more than enough, with delimiters of two kinds; and segments counted by their name.
fn rooms_about_errors() -> Vec<Bytes> {
    let longest_error = b"ERR|OBX^4095^14^102\r".len();
    let mut lines = Vec::new();
    for delimiters in DELIMITERS {
        for message in error_places::of_each_number() {
            let message = delimited(&message, delimiters);
            let enough = enough_for(&message, TIME, ID);
            let rooms = enough - longest_error - 1..=enough + 1;
            lines.extend(rooms.map(|room| ack_question(&message, TIME, ID, room)));
        }
        for message in error_places::counted() {
            lines.extend(exactly_and_less(&delimited(&message, delimiters)));
        }
    }
    lines
}

/// Every sequence up to 260: 256 segments were the most before W6.
fn every_sequence() -> Vec<Bytes> {
    (1..=260).flat_map(last_of_so_many).collect()
}

/// Sequences of three digits and of four, and those about the last that a message can have: of its
/// 4,096 segments MSH is one; before an OBX stands OBR, and CTI where it cannot stand.
fn late_sequences() -> Vec<Bytes> {
    let counts = [511, 512, 513, 999, 1_000, 1_001, 2_047, 2_048, 2_049, 3_000];
    counts.into_iter().chain(4_092..=4_096).flat_map(last_of_so_many).collect()
}

/// The last of so many segments: of OBR by a fault of its field, of OBX by one of the structure,
/// behind OBR and CTI, and by one of a field, behind OBR. Four counts in a row have the same
/// delimiters, so that each fault is asked with both kinds.
fn last_of_so_many(count: usize) -> Vec<Bytes> {
    let [orders, results] = error_places::last_of(count);
    let (field, content) = [(11, "Q"), (3, "\"\""), (14, "x"), (1, "1~1")][count % 4];
    let faulty = error_places::result_with(count, field, content);
    // So many whole OBX may be more than the program holds: then only C can ask.
    let held =
        [orders, results, faulty].into_iter().filter(|message| message.len() <= LONGEST_HELD);
    held.flat_map(|message| exactly_and_less(&delimited(&message, DELIMITERS[count / 4 % 2])))
        .collect()
}

/// Each fault of a field in the second segment of its name or the third, and in the tenth or a later
/// one, behind sound ones, with Z segments and other names between them.
fn faults_of_later_segments() -> Vec<Bytes> {
    let mut lines = Vec::new();
    for (at, behind) in refused::of_fields().iter().enumerate() {
        for (rounds, delimiters) in [(1, DELIMITERS[at % 2]), (9, DELIMITERS[1 - at % 2])] {
            let header = filled::header_of_oru(&[]);
            let mut segments = vec![&header[..]];
            for round in 0..rounds {
                segments.extend(["PID|||1||A", "OBR", error_places::RESULT]);
                segments.extend([["ZZZ", "NTE"], ["NTE", "ZBX|x"], ["OBR", "ZID"]][round % 3]);
            }
            let message = [&message(&segments)[..], behind].concat();
            lines.extend(exactly_and_less(&delimited(&message, delimiters)));
        }
    }
    lines
}

/// Every list of up to three names, of four types: whatever can stand, cannot, or has a fault of its
/// fields where it can.
fn short_lists() -> Vec<Bytes> {
    let types: [(&str, &[&str]); 4] = [
        ("ORU^R01", &["PID|||1||A", "PID", "NTE", "OBR", "OBX", "CTI", "DSC", "ZVI"]),
        ("ADT^A40", &["EVN", "PID|||1||A", "PID", "MRG", "PV1", "ZVI"]),
        ("ADT^A01", &["EVN", "PID|||1||A", "PID", "PV1", "AL1", "ZVI", "ZPD", "ZZZ"]),
        ("ADT^A02", &["EVN", "PID|||1||A", "PV1", "ZVI", "ZPD"]),
    ];
    let mut lines = Vec::new();
    for (message_type, segments) in types {
        let mut lists: Vec<Vec<&str>> = vec![Vec::new()];
        let mut longest = lists.clone();
        for _ in 0..3 {
            longest = longest
                .iter()
                .flat_map(|list| segments.iter().map(|segment| [&list[..], &[segment]].concat()))
                .collect();
            lists.extend(longest.clone());
        }
        for list in lists {
            let message = error_places::message_behind(message_type, &list);
            lines.push(acknowledged(&message, TIME, ID));
        }
    }
    lines
}

/// Headers with which the acknowledgement fills the largest buffer, or is one byte longer; and
/// headers as long as the program holds.
fn long_headers() -> Vec<Bytes> {
    let most_room = MOST_ROOM as usize;
    let mut lines = Vec::new();
    for field in [3, 4, 5, 6, 11] {
        let empty = filled::header_of_oru(&[(field, "")]);
        let longest = most_room - enough_for(&message(&[&empty]), TIME, ID);
        for filling in [longest, longest + 1, LONGEST_HELD - empty.len() - 1] {
            let header = filled::header_of_oru(&[(field, &"x".repeat(filling))]);
            lines.push(ack_question(&message(&[&header]), TIME, ID, most_room));
        }
    }
    let header = filled::header_of_oru(&[]);
    lines.push(ack_question(&message(&[&header, "OBR"]), TIME, ID, most_room));
    for byte in [0, CR] {
        lines.push(ack_question(&message(&[&header]), TIME, &[byte; 199], most_room));
    }
    // A header with no CR, and a long field that is not written back.
    lines.push(ack_question(&vec![b'x'; LONGEST_HELD], TIME, ID, 0));
    for field in [7, 8, 9, 12, 13] {
        let header = filled::header_of_oru(&[(field, &"x".repeat(65_000))]);
        lines.push(acknowledged(&message(&[&header]), TIME, ID));
    }
    lines
}

/// Acknowledgements that fill the largest buffer, or are one byte longer or shorter, with ERR and
/// without one; and those that would fill it with no ERR.
fn long_headers_and_errors() -> Vec<Bytes> {
    let most_room = MOST_ROOM as usize;
    let accepted = message(&[&filled::header_of_oru(&[]), "OBR"]);
    let without_error = most_room - enough_for(&accepted, TIME, ID);
    let mut lines = Vec::new();
    for (change, behind) in
        [((11, "P"), "OBR"), ((9, "ORU^R02"), "OBR"), ((11, "X"), "OBR"), ((11, "P"), "OBR|x")]
    {
        let message_of = |filling: usize| {
            let header = filled::header_of_oru(&[(3, &"x".repeat(filling)), change]);
            message(&[&header, behind])
        };
        let longest = most_room - enough_for(&message_of(0), TIME, ID);
        for filling in [longest - 1, longest, longest + 1, without_error] {
            lines.push(ack_question(&message_of(filling), TIME, ID, most_room));
        }
    }
    lines
}

/// A message of this length: the header, and an OBR for all the rest of it.
pub fn message_of_length(header: &str, length: usize) -> Bytes {
    stretched(message(&[header, "OBR|1|"]), length)
}

/// As many bytes as the program holds, and as many segments as may be, and one more: with AE then,
/// since the header is sound.
fn long_messages() -> Vec<Bytes> {
    let mut messages = Vec::new();
    for length in [32_769, LONGEST_HELD - 1, LONGEST_HELD] {
        let message = message_of_length(&filled::header_of_oru(&[]), length);
        messages.push(changed(&message, length - 1, b'x'));
        messages.push(message);
    }
    for count in [MOST_SEGMENTS, MOST_SEGMENTS + 1] {
        let header = filled::header_of_oru(&[]);
        let mut segments = vec![&header[..], "OBR"];
        segments.resize(count, "ZZZ");
        messages.push(message(&segments));
        segments[1] = "ZZZ";
        messages.push(message(&segments));
    }
    messages.iter().map(|message| acknowledged(message, TIME, ID)).collect()
}

/// What is answered AR, as long as the program holds, and of as many segments as may be; and of one
/// more, which is AE. The last segment that may be is number 4,095: its OBX-11 is AE too.
fn long_messages_that_reject() -> Vec<Bytes> {
    let mut messages = Vec::new();
    for change in [(9, "ORU^R02"), (11, "X"), (12, "2.5")] {
        let header = filled::header_of_oru(&[change]);
        messages.push(message_of_length(&header, LONGEST_HELD));
        let mut segments = vec![&header[..], "OBR"];
        segments.resize(MOST_SEGMENTS, "ZZZ");
        messages.push(message(&segments));
        segments.push("ZZZ");
        messages.push(message(&segments));
    }
    let header = filled::header_of_oru(&[]);
    let mut segments = vec![&header[..], "OBR"];
    segments.resize(MOST_SEGMENTS - 1, "NTE");
    segments.push("OBX|||1||||||||2.4");
    messages.push(message(&segments));
    messages.iter().map(|message| acknowledged(message, TIME, ID)).collect()
}

/// 8, which only what has more segments than may be can have, with delimiters of two kinds, each
/// with as much room as is enough and with one byte less.
fn too_many_with_rooms() -> Vec<Bytes> {
    let header = filled::header_of_oru(&[]);
    let mut segments = vec![&header[..], "OBR"];
    segments.resize(MOST_SEGMENTS + 1, "NTE");
    let message = message(&segments);
    let ask = |delimiters| exactly_and_less(&delimited(&message, delimiters));
    DELIMITERS.into_iter().flat_map(ask).collect()
}

/// Lines about as long as may be, byte for byte: by the time, by the ID, by both of them
/// behind a message, or by a message, which is more than the program holds.
fn long_lines() -> Vec<Bytes> {
    let header = message(&[r"MSH|^~\&||||||||1"]);
    let mut lines = Vec::new();
    for bytes in LONGEST_LINE / 2 - 8..=LONGEST_LINE / 2 {
        let time = bytes / 2;
        let id = bytes - header.len() - time;
        lines.push(ack_question(b"", &vec![b'2'; bytes], b"", 1));
        lines.push(ack_question(b"", b"", &vec![b'K'; bytes], 1));
        lines.push(ack_question(b"", TIME, &vec![b'K'; bytes - TIME.len()], 1));
        lines.push(ack_question(&header, &vec![b'2'; time], &vec![b'K'; id], 1));
        let mut longer = header.clone();
        longer.resize(bytes - TIME.len() - ID.len(), b'x');
        lines.push(ack_question(&longer, TIME, ID, 1));
    }
    lines
}
