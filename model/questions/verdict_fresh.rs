//! Fresh questions of the verb `verdict`: random walks through a structure with their judged fields
//! filled, mostly with what is accepted and in some with what is not, and messages as they are sent
//! with some damage done to them. Somewhat over a third is accepted.

use super::verdict_wide::{AROUND_ACCEPTED, TELLING};
use super::{
    filled, latin, lifelike, read_fresh, sound, structure_fresh, value_fresh, verdict_question,
    Bytes, LONG_IDS, USUAL_DELIMITERS,
};
use crate::chance::Chance;
use crate::reading::CR;

pub fn fresh(chance: &mut Chance) -> Bytes {
    verdict_question(&random_message(chance))
}

/// A random message of any kind, seldom a very long one.
pub fn random_message(chance: &mut Chance) -> Bytes {
    if chance.one_in(4000) {
        return read_fresh::long_message(chance);
    }
    let mut message = if chance.one_in(8) {
        let messages = lifelike::messages();
        messages[chance.below(messages.len())].clone()
    } else {
        filled_message(chance)
    };
    if chance.one_in(12) {
        let times = chance.between(1, 2);
        read_fresh::damage(chance, &mut message, times);
    }
    message
}

/// A segment by its name, at 0, and its fields, each at its number. MSH-1 is a mere place.
pub type Fields = Vec<Bytes>;

/// Segments with up to three contents that may be faults.
fn filled_message(chance: &mut Chance) -> Bytes {
    let mut segments = filled_segments(chance);
    for _ in 0..chance.pick(&[0, 0, 1, 1, 1, 1, 2, 3]) {
        put_fault(chance, &mut segments);
    }
    sent(chance, segments)
}

/// Mostly those of an ORU, which has most rows.
pub fn filled_segments(chance: &mut Chance) -> Vec<Fields> {
    let (kind, event) = chance.pick(&[
        ("ORU", "R01"),
        ("ORU", "R01"),
        ("ORU", "R01"),
        ("ORU", "R01"),
        ("ADT", "A40"),
        ("ADT", "A01"),
        ("ADT", "A02"),
        ("ADT", "A12"),
        ("ACK", "R01"),
    ]);
    let names = random_names(chance, kind, event);
    segments_of(chance, kind, event, &names)
}

/// A header of this type, and segments of these names behind it.
pub fn segments_of(chance: &mut Chance, kind: &str, event: &str, names: &[String]) -> Vec<Fields> {
    let mut segments = vec![random_header(chance, kind, event)];
    segments.extend(names.iter().map(|name| random_segment(chance, name)));
    segments
}

/// The message of these segments, with random delimiters.
pub fn sent(chance: &mut Chance, segments: Vec<Fields>) -> Bytes {
    let delimiters = sound::random_delimiters(chance);
    let usual: Bytes = segments.into_iter().flat_map(joined).collect();
    usual.iter().map(|&byte| structure_fresh::translated(byte, delimiters)).collect()
}

/// The names behind MSH: a walk through the structure, seldom a very long or a damaged one, with a
/// foreign Z segment now and then.
fn random_names(chance: &mut Chance, kind: &str, event: &str) -> Vec<String> {
    let mut names = match chance.below(100) {
        0 => structure_fresh::long_walk(chance, kind, event),
        1..=8 => structure_fresh::damaged_walk(chance, kind, event),
        _ => structure_fresh::walk(chance, kind, event),
    };
    if chance.one_in(6) {
        let at = chance.below(names.len() + 1);
        names.insert(at, "ZZZ".to_string());
    }
    names
}

/// The segment as it is sent with the usual delimiters.
fn joined(mut fields: Fields) -> Bytes {
    if fields[0] == b"MSH" {
        fields.remove(1);
    }
    let mut segment = fields.join(&b'|');
    segment.push(CR);
    segment
}

fn random_header(chance: &mut Chance, kind: &str, event: &str) -> Fields {
    let mut fields = vec![latin("MSH"), Vec::new(), latin(r"^~\&")];
    for field in 3..=12 {
        fields.push(accepted_content(chance, "MSH", field));
    }
    let behind = chance.pick(&["", "", "", "", "^", "^ORU_R01", "~", "~ACK"]);
    fields[9] = match chance.below(8) {
        0..=3 if kind == "ACK" => latin("ACK"),
        _ => latin(&format!("{kind}^{event}{behind}")),
    };
    fields
}

/// All fields up to the last that has to be there, and up to four more.
fn random_segment(chance: &mut Chance, name: &str) -> Fields {
    let least = match name {
        "PID" => 5,
        "OBX" => 11,
        "MSA" => 1,
        _ => 0,
    };
    let mut fields = vec![latin(name)];
    for field in 1..=least + chance.below(5) {
        fields.push(accepted_content(chance, name, field));
    }
    if name == "OBX" {
        fields[5] = random_value(chance, &fields[2].clone());
    }
    fields
}

const TIME_STAMPS: [&str; 8] = [
    "2024", "202402", "20240229", "202402290930", "20240229093001.1234+1030", "2024-0500",
    "20240229^D", "2024^&x",
];

/// Something that the field may hold: one that is judged by its row, the others mostly nothing.
fn accepted_content(chance: &mut Chance, name: &str, field: usize) -> Bytes {
    let optional = matches!((name, field), ("PID", 7 | 8) | ("OBR", 1) | ("OBX", 1 | 2 | 14));
    if optional && chance.one_in(3) {
        return latin(chance.pick(&["", "", "", r#""""#, "^", "&"]));
    }
    let contents: &[&str] = match (name, field) {
        ("MSH" | "PID", 7) | ("OBX", 14) => &TIME_STAMPS,
        ("MSH", 10) => &["1", "A7", "A^B", r#"""^"#, "K-1", "A23456789012345678901", LONG_IDS[0]],
        ("MSH", 11) => &["P", "P", "D", "T", "P^A", "T^"],
        ("MSH", 12) => &["2.4", "2.4", "2.4^", "2.4^AUS&&ISO"],
        ("PID", 3 | 5) => &["1", "Roe^Jo", "7^^^H~8", r#"A~~"""#, "^A", r#"""^"#],
        ("PID", 8) => &["M", "F", "O", "U"],
        ("OBR" | "OBX", 1) => &["1", "12", "0", "9999"],
        ("OBX", 2) => &["CE", "DT", "ED", "FT", "NM", "NM", "RP", "SN", "ST", "TM", "TS", "TX"],
        ("OBX", 3) => &["1", "GLU^Glucose^L", "^x", "&x"],
        ("OBX", 11) => &["C", "D", "F", "I", "N", "O", "P", "R", "S", "U", "W", "X"],
        ("MSA", 1) => &["AA", "AE", "AR"],
        _ => &["", "", "", "", "", "x", "1", "a^b&c", "x~y", r#""""#, "~", "é"],
    };
    latin(chance.pick(contents))
}

/// What OBX-5 may hold where OBX-2 is this, or seldom something else: of one to four repetitions.
fn random_value(chance: &mut Chance, value_type: &[u8]) -> Bytes {
    let count = chance.pick(&[1, 1, 1, 2, 3, 4]);
    let repetitions: Vec<Bytes> =
        (0..count).map(|_| random_repetition(chance, value_type)).collect();
    repetitions.join(&b'~')
}

fn random_repetition(chance: &mut Chance, value_type: &[u8]) -> Bytes {
    if chance.one_in(4) {
        return latin(chance.pick(&["", r#""""#, "^"]));
    }
    let (verb, contents): (&str, &[&str]) = match value_type {
        b"NM" => ("nm", &["5", "-5.0", "+0.50", "123456789012345678"]),
        b"DT" => ("dt", &["2024", "202402", "20240229"]),
        b"TM" => ("tm", &["09", "0930", "093001.5", "235959.9999-1459"]),
        b"TS" => ("ts", &TIME_STAMPS),
        // Where OBX-2 is nothing, OBX-5 may be no more, but seldom is.
        b"" | b"^" | b"&" | br#""""# => ("find", &["", "", "", "", "", "", "x"]),
        _ => ("find", &["x", "a^b&c", "5.", "<^5", r"\.br\"]),
    };
    if chance.one_in(20) {
        return value_fresh::random(chance, verb, USUAL_DELIMITERS);
    }
    latin(chance.pick(contents))
}

/// Changes a judged field of some segment to something that it mostly may not hold, or ends the
/// segment before it.
pub fn put_fault(chance: &mut Chance, segments: &mut [Fields]) {
    let judged = judged_fields(segments);
    if judged.is_empty() {
        return;
    }
    let (at, field) = chance.pick(&judged);
    if chance.one_in(10) {
        segments[at].truncate(field);
    } else {
        segments[at][field] = random_content(chance, &segments[at][field].clone());
    }
}

/// The judged fields that there are, by the segment's number and theirs.
fn judged_fields(segments: &[Fields]) -> Vec<(usize, usize)> {
    let mut judged = Vec::new();
    for (at, segment) in segments.iter().enumerate() {
        for (name, field, _) in filled::JUDGED {
            if name.as_bytes() == segment[0] && field < segment.len() {
                judged.push((at, field));
            }
        }
    }
    judged
}

/// Mostly one of the telling contents of the wide set, or what was there with something around it.
fn random_content(chance: &mut Chance, before: &[u8]) -> Bytes {
    match chance.below(8) {
        0..=2 => latin(chance.pick(&TELLING)),
        3..=4 => {
            let before: String = before.iter().map(|&byte| char::from(byte)).collect();
            latin(&chance.pick(&AROUND_ACCEPTED).replace('x', &before))
        }
        5 => value_fresh::mixture(chance, USUAL_DELIMITERS),
        6 => {
            let verb = chance.pick(&["nm", "si", "dt", "tm", "ts"]);
            value_fresh::random(chance, verb, USUAL_DELIMITERS)
        }
        _ => {
            // About the most digits of a number, or the most bytes of a control ID.
            let length = chance.pick(&[19, 19, 19, 199]) + chance.below(7) - 3;
            (0..length).map(|_| chance.pick(b"0123456789")).collect()
        }
    }
}
