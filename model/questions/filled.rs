//! Messages whose judged fields are filled: the shortest that are accepted, and the same with other
//! contents in some of their fields.

use super::{message, Bytes};

/// A field by its number, and what it holds.
pub type Field<'a> = (usize, &'a str);

/// The fields that are judged, in the order of the table, each with a content that is accepted.
pub const JUDGED: [(&str, usize, &str); 16] = [
    ("MSH", 7, "2024"),
    ("MSH", 10, "1"),
    ("MSH", 11, "P"),
    ("MSH", 12, "2.4"),
    ("PID", 3, "1"),
    ("PID", 5, "A"),
    ("PID", 7, "1970"),
    ("PID", 8, "F"),
    ("OBR", 1, "1"),
    ("OBX", 1, "1"),
    ("OBX", 2, "NM"),
    ("OBX", 3, "1"),
    ("OBX", 5, "5"),
    ("OBX", 11, "F"),
    ("OBX", 14, "2024"),
    ("MSA", 1, "AA"),
];

/// The fields that a segment cannot be without; in MSH, the delimiters and a type among them.
fn least(name: &str) -> Vec<Field<'static>> {
    match name {
        "MSH" => {
            vec![(2, r"^~\&"), (7, "2024"), (9, "ACK"), (10, "1"), (11, "P"), (12, "2.4")]
        }
        "PID" => vec![(3, "1"), (5, "A")],
        "OBX" => vec![(3, "1"), (11, "F")],
        "MSA" => vec![(1, "AA")],
        _ => Vec::new(),
    }
}

/// The shortest segment of this name that is accepted, with something else in these fields. Where
/// OBX-5 is one of them, OBX-2 is NM if nothing else is said.
pub fn segment(name: &str, changes: &[Field]) -> String {
    let mut fields = least(name);
    if name == "OBX" && changes.iter().any(|&(number, _)| number == 5) {
        fields.push((2, "NM"));
    }
    fields.extend(changes);
    joined(name, &fields)
}

/// The same without all fields from one on.
pub fn segment_ending_before(name: &str, field: usize) -> String {
    let mut fields = least(name);
    fields.retain(|&(number, _)| number < field);
    joined(name, &fields)
}

/// The later of two contents of one field is taken, and a field with none is empty.
fn joined(name: &str, fields: &[Field]) -> String {
    let last = fields.iter().map(|&(number, _)| number).max().unwrap_or(0);
    let mut texts = vec![""; last + 1];
    for &(number, content) in fields {
        texts[number] = content;
    }
    texts[0] = name;
    if name == "MSH" {
        // MSH-1 is the separator behind the name.
        texts.remove(1);
    }
    texts.join("|")
}

/// The header of an ORU with something else in these fields.
pub fn header_of_oru(changes: &[Field]) -> String {
    segment("MSH", &[&[(9, "ORU^R01")], changes].concat())
}

/// The shortest message that a segment of this name can stand in, with this one there.
pub fn message_around(segment: &str) -> Bytes {
    let oru = header_of_oru(&[]);
    let ack = self::segment("MSH", &[]);
    match &segment[..3] {
        "MSH" => message(&[segment, "MSA|AA"]),
        "MSA" => message(&[&ack, segment]),
        "PID" => message(&[&oru, segment, "OBR"]),
        "OBR" => message(&[&oru, segment]),
        _ => message(&[&oru, "OBR", segment]),
    }
}

/// The shortest message that is accepted but for one field, or for some fields of one segment.
pub fn message_with(name: &str, changes: &[Field]) -> Bytes {
    message_around(&segment(name, changes))
}

/// A message of all segments that an ORU is judged by, but for some fields of some of them. Behind
/// one OBX stand a second patient and a second OBX.
pub fn oru_with(changes: &[(&str, usize, &str)]) -> Bytes {
    let changes_of = |place: &str| -> Vec<Field> {
        let here = changes.iter().filter(|(name, ..)| *name == place);
        here.map(|&(_, number, content)| (number, content)).collect()
    };
    message(&[
        &header_of_oru(&changes_of("MSH")),
        &segment("PID", &changes_of("PID")),
        &segment("OBR", &changes_of("OBR")),
        &segment("OBX", &changes_of("OBX")),
        &segment("PID", &changes_of("second PID")),
        &segment("OBR", &changes_of("second OBR")),
        &segment("OBX", &changes_of("second OBX")),
    ])
}
