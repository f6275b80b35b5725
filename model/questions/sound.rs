//! Sound messages: written ones of every kind for the stored vectors, and random ones. The segments
//! of a random message are grown from the structures as document 01 prints them.

use super::{latin, message, Bytes, USUAL_DELIMITERS};
use crate::chance::Chance;
use crate::reading::{allowed, may_delimit, CR};
use crate::structure::{ACK, ADT_A01, ADT_A02_AND_A12, ADT_A40, ORU_R01};

/// The structures, each with a type and an event that choose it.
pub const STRUCTURES: [(&str, &str, &str); 6] = [
    ("ORU", "R01", ORU_R01),
    ("ACK", "R01", ACK),
    ("ADT", "A40", ADT_A40),
    ("ADT", "A01", ADT_A01),
    ("ADT", "A02", ADT_A02_AND_A12),
    ("ADT", "A12", ADT_A02_AND_A12),
];

/// One message of each structure at its fullest and at its least.
pub fn of_each_structure() -> Vec<Bytes> {
    let oru = r"MSH|^~\&|LAB|PATH|GP|CLINIC|20240229093000+1000||ORU^R01|A7|P|2.4";
    let pid = "PID|1||7^^^H||DOE^JO||19700101|M";
    let obx = "OBX|1|NM|GLU||5.4|mmol/l|||||F|||20240229";
    let ack = r"MSH|^~\&|GP|CLINIC|LAB|PATH|20240229||ACK^R01|K1|P|2.4";
    let a40 = r"MSH|^~\&|||||2024||ADT^A40|B1|T|2.4";
    let a01 = r"MSH|^~\&|||||2024||ADT^A01|B2|T|2.4";
    let a02 = r"MSH|^~\&|||||2024||ADT^A02|B3|T|2.4";
    let a12 = r"MSH|^~\&|||||2024||ADT^A12|B4|T|2.4";
    vec![
        message(&[
            oru, pid, "PD1|", "NK1|1", "NTE|1||fasting", "PV1|1|O", "PV2", "ORC|RE", "OBR|1|||GLU",
            "NTE|1", obx, "NTE|1|L|high", "CTI|1", "DSC|9",
        ]),
        message(&[oru, "OBR|1"]),
        message(&[oru, pid, "OBR|1", obx, obx, "OBR|2", "NTE|1"]),
        message(&[ack, "MSA|AA|A7"]),
        message(&[ack, "MSA|AE|A7", "ERR|PID^1^3"]),
        message(&[a40, "EVN|A40", pid, "PD1", "MRG|8", "PV1|1", pid, "MRG|9"]),
        message(&[a40, "EVN", pid, "MRG|8"]),
        message(&[
            a01, "EVN", pid, "NK1|1", "NK1|2", "PV1", "PV2", "AL1|1", "IN1|1", "ZVI|x", "ZPD|y",
        ]),
        message(&[a01, "EVN", pid, "PV1|1|I"]),
        message(&[a02, "EVN|A02", pid, "PV1|1|I", "PV2|", "ZVI|", "ZPD|"]),
        message(&[a12, "EVN|A12", pid, "PV1|1|I"]),
    ]
}

/// Sound messages of other kinds: few bytes, Z segments, Latin-1, other delimiters.
pub fn of_other_kinds() -> Vec<Bytes> {
    let every_byte: String = (0x20..=0xFF).filter(|&byte| allowed(byte)).map(char::from).collect();
    vec![
        message(&[r"MSH|^~\&"]),
        message(&[r"MSH|^~\&|"]),
        message(&[r"MSH|^~\&||||||||||"]),
        message(&[r"MSH|^~\&", "PID", "OBR", "OBX"]),
        message(&[r"MSH|^~\&|", "PID|", "A00|", "Z99|1"]),
        message(&[r"MSH|^~\&|LAB", "ZZZ", "PID|1", "Z01|x|y", "Z9A"]),
        message(&[r"MSH|^~\&|LAB", r#"PID|1||7||Müller^Jörg|""|\S\|\X41\"#]),
        message(&[r"MSH|^~\&|LAB", &format!("NTE|{every_byte}")]),
        message(&[r"MSH#$%*@#LAB", "PID#1#|#A$B"]),
        message(&["MSH!,:;/!LAB", "PID!1!|^~\\&"]),
        message(&[r"MSH\&~^|\LAB", r"PID\1"]),
        message(&["MSH'`{}_'", "PID'1"]),
        message(&["MSH(<=>)", "PID(1)", "PID"]),
    ]
}

/// A random sound message, mostly short.
pub fn random(chance: &mut Chance) -> Bytes {
    let delimiters = random_delimiters(chance);
    let (kind, event, structure) = chance.pick(&STRUCTURES);
    let mut names = random_names(chance, structure, seldom_twice);
    names.truncate(12);
    if chance.one_in(4) {
        let at = chance.between(1, names.len());
        names.insert(at, random_name(chance));
    }
    let mut message = random_header(chance, delimiters, kind, event);
    for name in &names[1..] {
        message.extend(random_segment(chance, delimiters, name));
    }
    message
}

/// Five that differ and are permitted; the usual ones three times in four.
pub fn random_delimiters(chance: &mut Chance) -> [u8; 5] {
    if !chance.one_in(4) {
        return USUAL_DELIMITERS;
    }
    let mut permitted: Bytes = (0..=0xFF).filter(|&byte| may_delimit(byte)).collect();
    [0; 5].map(|_| permitted.swap_remove(chance.below(permitted.len())))
}

/// A structure's line as brackets, braces and names.
fn tokens(structure: &str) -> Vec<String> {
    let mut spaced = structure.to_string();
    for bracket in ["[", "]", "{", "}"] {
        spaced = spaced.replace(bracket, &format!(" {bracket} "));
    }
    spaced.split_whitespace().map(str::to_string).collect()
}

/// Names that the structure may yield: brackets none or once, braces as often as `times` says.
pub fn random_names(chance: &mut Chance, structure: &str, times: Times) -> Vec<String> {
    let mut names = Vec::new();
    grow(&tokens(structure), chance, times, &mut names);
    names
}

/// How often a brace is repeated.
type Times = fn(&mut Chance) -> usize;

/// Once, or now and then twice.
pub fn seldom_twice(chance: &mut Chance) -> usize {
    1 + chance.below(6) / 5
}

fn grow(tokens: &[String], chance: &mut Chance, times: Times, names: &mut Vec<String>) {
    let mut at = 0;
    while at < tokens.len() {
        let count = match tokens[at].as_str() {
            "[" => chance.below(2),
            "{" => times(chance),
            name => {
                names.push(name.to_string());
                at += 1;
                continue;
            }
        };
        let end = closing(tokens, at);
        for _ in 0..count {
            grow(&tokens[at + 1..end], chance, times, names);
        }
        at = end + 1;
    }
}

/// Where the bracket or brace that opens at `open` is closed.
fn closing(tokens: &[String], open: usize) -> usize {
    let mut depth = 0;
    for at in open..tokens.len() {
        match tokens[at].as_str() {
            "[" | "{" => depth += 1,
            "]" | "}" => depth -= 1,
            _ => {}
        }
        if depth == 0 {
            return at;
        }
    }
    unreachable!("a structure whose brackets are not closed")
}

/// A well-formed name, a Z segment's every other time.
pub fn random_name(chance: &mut Chance) -> String {
    let first = if chance.one_in(2) { 'Z' } else { char::from(chance.between(0x41, 0x5A) as u8) };
    let mut name = first.to_string();
    for _ in 0..2 {
        name.push(char::from(chance.pick(b"ABCDEFGHIJKLMNOPQRSTUVWXYZ0123456789")));
    }
    name
}

/// A header that stops behind the delimiters, or runs on for some random fields, or up to MSH-12.
fn random_header(chance: &mut Chance, delimiters: [u8; 5], kind: &str, event: &str) -> Bytes {
    let [field, component, ..] = delimiters;
    let mut header = latin("MSH");
    header.extend(delimiters);
    let count = chance.below(9);
    for _ in 0..count.min(6) {
        header.push(field);
        header.extend(random_field(chance, delimiters));
    }
    if count >= 6 {
        header.extend([field, field]);
        header.extend(latin(kind));
        header.push(component);
        header.extend(latin(event));
        for text in ["A7", "P", "2.4"] {
            header.push(field);
            header.extend(latin(text));
        }
    }
    header.push(CR);
    header
}

pub fn random_segment(chance: &mut Chance, delimiters: [u8; 5], name: &str) -> Bytes {
    let mut segment = latin(name);
    for _ in 0..chance.below(4) {
        segment.push(delimiters[0]);
        segment.extend(random_field(chance, delimiters));
    }
    segment.push(CR);
    segment
}

/// Empty, null, a number, a word, one split further, or any bytes that a message may hold but CR.
fn random_field(chance: &mut Chance, delimiters: [u8; 5]) -> Bytes {
    let kind = chance.below(8);
    let count = chance.between(1, 5);
    match kind {
        0..=2 => Vec::new(),
        3 => latin("\"\""),
        4 => (0..count).map(|_| chance.pick(b"0123456789.+-")).collect(),
        5 => (0..count).map(|_| chance.pick(b"ABCxyz 19")).collect(),
        6 => (0..count).map(|_| chance.pick(&[&delimiters[1..], b"AF1"].concat())).collect(),
        _ => (0..count).map(|_| random_content(chance)).collect(),
    }
}

/// Any byte that may stand inside a segment.
pub fn random_content(chance: &mut Chance) -> u8 {
    let content: Bytes = (0x20..=0xFF).filter(|&byte| allowed(byte)).collect();
    chance.pick(&content)
}
