//! Fresh questions of the verb `structure`: random walks through a structure, whole or with segments
//! dropped, doubled, swapped or foreign, Z segments among them, and MSH-9 spelt in many ways.

use super::{message, read_fresh, sound, structure_question, Bytes, USUAL_DELIMITERS};
use crate::chance::Chance;
use crate::reading::CR;

pub fn fresh(chance: &mut Chance) -> Bytes {
    let mut message = random_message(chance);
    if chance.one_in(20) {
        let times = chance.between(1, 2);
        read_fresh::damage(chance, &mut message, times);
    }
    structure_question(&message)
}

/// Mostly an ORU or an A01, the structures that have most to go wrong.
fn random_message(chance: &mut Chance) -> Bytes {
    let (kind, event) = chance.pick(&[
        ("ORU", "R01"),
        ("ORU", "R01"),
        ("ORU", "R01"),
        ("ADT", "A01"),
        ("ADT", "A01"),
        ("ADT", "A40"),
        ("ADT", "A02"),
        ("ADT", "A12"),
        ("ACK", "R01"),
    ]);
    let names = if chance.one_in(60) {
        long_walk(chance, kind, event)
    } else {
        random_names(chance, kind, event)
    };
    let delimiters = sound::random_delimiters(chance);
    let mut message = random_header(chance, delimiters, kind, event);
    let names_alone = chance.one_in(2) || names.len() > 20;
    for name in names {
        if names_alone {
            message.extend(name.as_bytes());
            message.push(CR);
        } else {
            message.extend(sound::random_segment(chance, delimiters, &name));
        }
    }
    message
}

/// A walk as it is, damaged, or cut; with Z segments every third time.
pub fn random_names(chance: &mut Chance, kind: &str, event: &str) -> Vec<String> {
    let mut names = walk(chance, kind, event);
    match chance.below(8) {
        0..=1 => {}
        2 => names.truncate(chance.below(names.len() + 1)),
        3..=6 => damage(chance, &mut names),
        _ => {
            damage(chance, &mut names);
            damage(chance, &mut names);
        }
    }
    if chance.one_in(3) {
        for _ in 0..chance.between(1, 3) {
            let at = chance.below(names.len() + 1);
            names.insert(at, z_name(chance));
        }
    }
    names
}

/// The names behind MSH that a walk through the structure of this type comes by.
pub fn walk(chance: &mut Chance, kind: &str, event: &str) -> Vec<String> {
    let times = if chance.one_in(2) { sound::seldom_twice } else { up_to_three };
    let mut names = sound::random_names(chance, structure_of(kind, event), times);
    names.truncate(24);
    names.split_off(1)
}

fn structure_of(kind: &str, event: &str) -> &'static str {
    let chosen = sound::STRUCTURES.iter().find(|&&(k, e, _)| (k, e) == (kind, event));
    chosen.expect("the type of a structure").2
}

fn up_to_three(chance: &mut Chance) -> usize {
    chance.between(1, 3)
}

fn up_to_twelve(chance: &mut Chance) -> usize {
    chance.between(1, 12)
}

/// Many segments where the structure repeats enough, or else filled with Z segments.
pub fn long_walk(chance: &mut Chance, kind: &str, event: &str) -> Vec<String> {
    let mut names = sound::random_names(chance, structure_of(kind, event), up_to_twelve);
    names.remove(0);
    let many = read_fresh::many(chance);
    let count = chance.between(many - 5, many);
    while names.len() < count && chance.below(8) > 0 {
        let at = chance.below(names.len() + 1);
        names.insert(at, "ZZZ".to_string());
    }
    names.truncate(count);
    if chance.one_in(2) {
        damage(chance, &mut names);
    }
    names
}

/// A walk with one segment dropped, doubled, swapped or foreign.
pub fn damaged_walk(chance: &mut Chance, kind: &str, event: &str) -> Vec<String> {
    let mut names = walk(chance, kind, event);
    damage(chance, &mut names);
    names
}

fn damage(chance: &mut Chance, names: &mut Vec<String>) {
    let at = chance.below(names.len() + 1);
    if at == names.len() {
        names.push(foreign_name(chance));
        return;
    }
    let other = chance.below(names.len());
    match chance.below(7) {
        0..=1 => drop(names.remove(at)),
        2 => names.insert(at, names[at].clone()),
        3 => names.insert(at, names[other].clone()),
        4 => names.swap(at, other),
        5 => names[at] = foreign_name(chance),
        _ => names.insert(at, foreign_name(chance)),
    }
}

/// Mostly a name of some structure, which may well stand there.
fn foreign_name(chance: &mut Chance) -> String {
    if chance.one_in(8) {
        return sound::random_name(chance);
    }
    let names = [
        "PID", "PD1", "NK1", "NTE", "PV1", "PV2", "ORC", "OBR", "OBX", "CTI", "DSC", "MSA", "ERR",
        "EVN", "MRG", "AL1", "IN1", "ZVI", "ZPD", "ZZZ", "DG1",
    ];
    chance.pick(&names).to_string()
}

fn z_name(chance: &mut Chance) -> String {
    if chance.one_in(4) {
        return format!("Z{}", &sound::random_name(chance)[1..]);
    }
    chance.pick(&["ZVI", "ZPD", "ZZZ", "Z01", "ZBR"]).to_string()
}

/// Mostly with the type as it is, by itself or among other fields; or with another, or with none.
fn random_header(chance: &mut Chance, delimiters: [u8; 5], kind: &str, event: &str) -> Bytes {
    let message_type = match chance.below(20) {
        0..=1 => other_type(chance),
        2..=3 => format!("{kind}^{event}{}", chance.pick(&["^", "^x", "~", "~ACK", "^x&y~z"])),
        4..=9 if kind == "ACK" => chance.pick(&["ACK", "ACK^", "ACK^\"\"", "ACK^^x"]).to_string(),
        _ => format!("{kind}^{event}"),
    };
    let header = match chance.below(12) {
        0 => format!(r"MSH|^~\&|LAB|PATH|GP|CLINIC|2024||{message_type}|A7|P|2.4"),
        1 if chance.one_in(2) => format!(r"MSH|^~\&||||||{message_type}"),
        2 if chance.one_in(4) => r"MSH|^~\&|||||||".to_string(),
        3 if chance.one_in(4) => r"MSH|^~\&".to_string(),
        _ => format!(r"MSH|^~\&|||||||{message_type}"),
    };
    let usual = message(&[&header]);
    usual.iter().map(|&byte| translated(byte, delimiters)).collect()
}

/// A type of another structure or of none, now and then with a byte changed or put in.
fn other_type(chance: &mut Chance) -> String {
    let kind = chance.pick(&["ORU", "ACK", "ADT", "ADT", "ORM", "MCF", "oru", "ORU ", "\"\"", ""]);
    let event = chance.pick(&["R01", "A01", "A02", "A12", "A40", "A03", "A04", "", "\"\"", "r01"]);
    let parted = chance.pick(&["^", "^", "^", "^", "^", "&", "~", "^^", ""]);
    let mut message_type = format!("{kind}{parted}{event}");
    if chance.one_in(4) {
        let at = chance.below(message_type.len() + 1);
        message_type.insert(at, chance.pick(&['^', '~', '&', '\\', ' ', '"', 'A', '0']));
    }
    message_type
}

/// The byte, or where it is one of the usual delimiters the one that stands for it.
pub fn translated(byte: u8, delimiters: [u8; 5]) -> u8 {
    match USUAL_DELIMITERS.iter().position(|&usual| usual == byte) {
        Some(number) => delimiters[number],
        None => byte,
    }
}
