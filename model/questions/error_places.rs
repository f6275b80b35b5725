//! Messages with a header that is acknowledged, by what ERR tells of them (W4 of document 02): one
//! of each number and of each code, segments that are one of many of their name, and segments that
//! cannot stand where they do. 2 and 3 are not here, nor 37 at MSH-10 and any fault of MSA-1: what has
//! one of those is not acknowledged. What is as long as a limit, 1 and 8 among it, stands in the wide
//! set and in the large one.

use super::filled::{header_of_oru, message_with, segment};
use super::structure_fresh::translated;
use super::{latin, message, Bytes, USUAL_DELIMITERS};
use crate::text::Delimiters;

/// The usual delimiters, and five others.
pub const DELIMITERS: [Delimiters; 2] = [USUAL_DELIMITERS, *b"#$%*@"];

/// The message with these delimiters in the place of the usual ones.
pub fn delimited(message: &[u8], delimiters: Delimiters) -> Bytes {
    message.iter().map(|&byte| translated(byte, delimiters)).collect()
}

/// An OBX that is accepted, as short as can be.
pub const RESULT: &str = "OBX|||1||||||||F";

/// The shortest message of each number, with each code that it can have, at a field of one digit
/// and at one of two; and one that is accepted, which has no ERR.
pub fn of_each_number() -> Vec<Bytes> {
    let header = message(&[&header_of_oru(&[])]);
    // Accepted, 4, 5, 6, 7, 22, and 21 at a name that came up before or did not.
    let behind = ["OBR\r", "O\tR\r", "OBR", "obr\r", "MSH\r", "", "EVN\r", "OBR\rDSC\rDSC\r"];
    let mut messages = behind.map(|behind| [&header[..], &latin(behind)].concat()).to_vec();
    for (field, content) in [
        (9, "ORU^R02"), // 20
        (7, ""),        // 31
        (11, ""),       // 31
        (12, r#""""#),  // 34
        (7, "x"),       // 32
        (11, "X"),      // 33, which is 202
        (12, "2.5"),    // 33, which is 203
        (10, "A~B"),    // 36
        (11, "X~P"),    // 36
    ] {
        messages.push(message(&[&header_of_oru(&[(field, content)]), "OBR"]));
    }
    for (name, field, content) in [
        ("PID", 3, ""),                    // 31
        ("OBX", 11, ""),                   // 31
        ("PID", 5, r#""""#),               // 34
        ("OBR", 1, "x"),                   // 32
        ("OBX", 14, "x"),                  // 32
        ("PID", 8, "X"),                   // 33
        ("OBX", 11, "Q"),                  // 33
        ("OBX", 3, "1~1"),                 // 36
        ("OBX", 5, "1234567890123456789"), // 37
    ] {
        messages.push(message_with(name, &[(field, content)]));
    }
    messages.push(message_with("OBX", &[(2, ""), (5, "5")])); // 35
    messages
}

/// An ORU of so many OBR, of which the last has a fault; and one of so many OBX, of which the last
/// cannot stand.
pub fn last_of(count: usize) -> [Bytes; 2] {
    let header = header_of_oru(&[]);
    let mut orders = vec![&header[..]];
    orders.resize(count, "OBR");
    orders.push("OBR|x");
    // Each OBX has a fault of its own, which comes later.
    let mut results = vec![&header[..], "OBR"];
    results.resize(count + 1, "OBX");
    results.extend(["CTI", "OBX"]);
    [message(&orders), message(&results)]
}

/// An ORU of so many OBX, of which the last has this content in a field.
pub fn result_with(count: usize, field: usize, content: &str) -> Bytes {
    let header = header_of_oru(&[]);
    let faulty = segment("OBX", &[(field, content)]);
    let mut results = vec![&header[..], "OBR"];
    results.resize(count + 1, RESULT);
    results.push(&faulty);
    message(&results)
}

/// A message of this type with a sound header, and with these segments behind it.
pub fn message_behind(message_type: &str, segments: &[&str]) -> Bytes {
    let header = segment("MSH", &[(9, message_type)]);
    message(&[&[&header[..]], segments].concat())
}

/// Segments that are counted by their own name and by no other: other names stand between them, and
/// Z segments, which are taken out or held to their places.
pub fn counted() -> Vec<Bytes> {
    let patient = "PID|||1||A";
    [
        ("ORU^R01", &[patient, "OBR", RESULT, "NTE", RESULT, patient, "OBR", "OBX|||1"][..]),
        ("ORU^R01", &[patient, "OBR", RESULT, patient, "OBR", patient, "OBR", "PID|||1", "OBR"]),
        ("ORU^R01", &["OBR", "ZZZ", "OBR", "ZBR", "ZZZ", "OBR|x"]),
        ("ORU^R01", &["ZVI", "ZBX|x", "OBR", "ZVI", "OBX", "ZVI"]),
        ("ORU^R01", &["OBR", "NTE", "CTI", "NTE"]),
        ("ORU^R01", &["OBR", "OBX|x", "NTE", "OBX", "CTI", "ZZZ", "OBX"]),
        ("ORU^R01", &[patient, "ZZZ", "PID"]),
        ("ORU^R01", &["OBR", "ORC", "ZZZ", "ORC"]),
        ("ORU^R01", &["OBR", "MSA|AA"]),
        ("ORU^R01", &["OBR", "ERR|OBR^1"]),
        ("ADT^A40", &["EVN", patient, "MRG", patient, "PD1", "MRG", "PID|||1", "MRG"]),
        ("ADT^A40", &["EVN", patient, "MRG", patient, "MRG", "MRG"]),
        ("ADT^A40", &["EVN", "ZVI", patient, "ZVI", "MRG", "EVN"]),
        ("ADT^A01", &["ZVI", "EVN", patient, "PV1"]),
        ("ADT^A01", &["EVN", patient, "PV1", "ZVI", "ZZZ", "ZVI"]),
        ("ADT^A01", &["EVN", patient, "PV1", "ZPD", "ZZZ", "ZVI"]),
        ("ADT^A01", &["EVN", patient, "ZZZ", "NK1", "PV1", "AL1", "NK1"]),
        ("ADT^A02", &["EVN", patient, "PV1", "ZZZ", "ZPD", "ZPD"]),
        ("ADT^A12", &["EVN", patient, "PV1", "PID"]),
    ]
    .map(|(message_type, segments)| message_behind(message_type, segments))
    .to_vec()
}
