//! The wide set of the verb `structure`: every short list of names for the small structures, random
//! walks of one seed through the large ones, and as many segments as may be.

use super::{message_of_type, structure_fresh, structure_question, Bytes};
use crate::chance::Chance;
use crate::reading::MOST_SEGMENTS;

pub fn wide() -> Vec<Bytes> {
    [every_list(), every_event(), walks()].concat()
}

/// What is as large as a limit.
pub fn limits() -> Vec<Bytes> {
    many_segments().iter().map(|message| structure_question(message)).collect()
}

/// As many segments as may be, one more, and a fault at the last of them.
fn many_segments() -> Vec<Bytes> {
    let most = MOST_SEGMENTS - 1;
    let mut repeated = vec!["OBR"];
    repeated.resize(most, "NTE");
    let mut foreign = vec!["ZZZ"; most - 1];
    foreign.push("EVN");
    let mut too_many = foreign.clone();
    too_many.push("ZZZ");
    [repeated, foreign, too_many]
        .iter()
        .map(|segments| message_of_type("ORU^R01", segments))
        .collect()
}

/// Every list of so many names behind MSH, and of fewer: of the names of the structure but MSH, which
/// no message may hold twice, and of one that is foreign to it.
fn every_list() -> Vec<Bytes> {
    let mut lines = Vec::new();
    for (message_type, names, most) in [
        ("ACK", "MSA ERR NTE", 4),
        ("ADT^A40", "EVN PID PD1 MRG PV1 NTE", 4),
        ("ADT^A02", "EVN PID PV1 PV2 ZVI ZPD NTE", 4),
        ("ADT^A01", "EVN PID NK1 PV1 PV2 AL1 IN1 ZVI ZPD ZZZ NTE", 3),
        ("ORU^R01", "PID PD1 NK1 NTE PV1 PV2 ORC OBR OBX CTI DSC EVN", 3),
    ] {
        let names: Vec<&str> = names.split(' ').collect();
        for list in lists(&names, most) {
            lines.push(structure_question(&message_of_type(message_type, &list)));
        }
    }
    lines
}

/// All lists over these names, from none of them to the most.
fn lists<'a>(names: &[&'a str], most: usize) -> Vec<Vec<&'a str>> {
    let mut lists = vec![Vec::new()];
    let mut longest = lists.clone();
    for _ in 0..most {
        longest = longest
            .iter()
            .flat_map(|list| names.iter().map(|&name| [&list[..], &[name]].concat()))
            .collect();
        lists.extend(longest.clone());
    }
    lists
}

/// Every event of two digits, of each letter and type that a structure has.
fn every_event() -> Vec<Bytes> {
    let mut lines = Vec::new();
    for kind in ["ADT^A", "ADT^R", "ORU^R", "ORU^A", "ACK^A"] {
        for event in 0..100 {
            let message_type = format!("{kind}{event:02}");
            lines.push(structure_question(&message_of_type(&message_type, &["EVN", "PID"])));
        }
    }
    lines
}

/// Walks through ORU and A01, each with one segment dropped, doubled, swapped or foreign.
fn walks() -> Vec<Bytes> {
    let mut chance = Chance::of_seed(24);
    let mut lines = Vec::new();
    for _ in 0..1500 {
        for (kind, event) in [("ORU", "R01"), ("ADT", "A01")] {
            let names = structure_fresh::damaged_walk(&mut chance, kind, event);
            let names: Vec<&str> = names.iter().map(String::as_str).collect();
            let message = message_of_type(&format!("{kind}^{event}"), &names);
            lines.push(structure_question(&message));
        }
    }
    lines
}
