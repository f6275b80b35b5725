//! The stored questions of the verb `structure`: each structure at its fullest and at its least, with
//! one segment dropped, doubled, swapped or foreign; every two segments of an ORU; Z segments that a
//! structure names and others; and MSH-9 in all spellings.

use super::{latin, message, message_of_type, structure_question, Bytes};

/// Each structure with every segment that it names, in order, behind MSH.
const FULLEST: [(&str, &str); 6] = [
    ("ORU^R01", "PID PD1 NK1 NTE PV1 PV2 ORC OBR NTE OBX NTE CTI DSC"),
    ("ACK^R01", "MSA ERR"),
    ("ADT^A40", "EVN PID PD1 MRG PV1"),
    ("ADT^A01", "EVN PID NK1 PV1 PV2 AL1 IN1 ZVI ZPD"),
    ("ADT^A02", "EVN PID PV1 PV2 ZVI ZPD"),
    ("ADT^A12", "EVN PID PV1 PV2 ZVI ZPD"),
];

/// Each structure with the segments that it cannot be without.
const LEAST: [(&str, &str); 6] = [
    ("ORU^R01", "OBR"),
    ("ACK^R01", "MSA"),
    ("ADT^A40", "EVN PID MRG"),
    ("ADT^A01", "EVN PID PV1"),
    ("ADT^A02", "EVN PID PV1"),
    ("ADT^A12", "EVN PID PV1"),
];

pub fn stored() -> Vec<Bytes> {
    let messages = [
        samples(),
        fullest(),
        least(),
        two_segments_of_an_oru(),
        groups_of_an_oru(),
        groups_of_others(),
        foreign_z_segments(),
        named_z_segments(),
        spellings(),
        types_with_other_structures(),
        headers(),
        contents(),
        reading_faults(),
    ];
    let mut lines = no_questions();
    lines.extend(messages.concat().iter().map(|message| structure_question(message)));
    lines
}

/// A message of this type with segments that are names alone, parted by spaces.
fn named(message_type: &str, names: &str) -> Bytes {
    message_of_type(message_type, &names.split_whitespace().collect::<Vec<&str>>())
}

/// Samples 10 to 12 of the paper.
fn samples() -> Vec<Bytes> {
    ["", "PID EVN", "OBR EVN"].map(|names| named("ORU^R01", names)).to_vec()
}

fn fullest() -> Vec<Bytes> {
    FULLEST.iter().flat_map(|(message_type, names)| changed_once(message_type, names)).collect()
}

fn least() -> Vec<Bytes> {
    LEAST.iter().flat_map(|(message_type, names)| changed_once(message_type, names)).collect()
}

/// The message as it is; cut before each segment; each segment dropped, doubled, and swapped with the
/// one before it; and a segment that no structure names put before each, and at the end.
fn changed_once(message_type: &str, names: &str) -> Vec<Bytes> {
    let names: Vec<&str> = names.split_whitespace().collect();
    let mut messages = vec![message_of_type(message_type, &names)];
    for at in 0..names.len() {
        let (before, from) = names.split_at(at);
        messages.push(message_of_type(message_type, before));
        messages.push(message_of_type(message_type, &[before, &from[1..]].concat()));
        messages.push(message_of_type(message_type, &[before, &from[..1], from].concat()));
        messages.push(message_of_type(message_type, &[before, &["XXX"], from].concat()));
        if at > 0 {
            let mut swapped = names.clone();
            swapped.swap(at - 1, at);
            messages.push(message_of_type(message_type, &swapped));
        }
    }
    messages.push(message_of_type(message_type, &[&names[..], &["XXX"]].concat()));
    messages
}

/// Every two of an ORU's segments behind MSH, and each of them behind OBR and before a foreign one:
/// so every list of names that can follow OBR and one more.
fn two_segments_of_an_oru() -> Vec<Bytes> {
    let names = ["PID", "PD1", "NK1", "NTE", "PV1", "PV2", "ORC", "OBR", "OBX", "CTI", "DSC"];
    let mut messages = Vec::new();
    for first in names {
        for second in names {
            messages.push(message_of_type("ORU^R01", &[first, second]));
        }
        messages.push(message_of_type("ORU^R01", &["OBR", first, "EVN"]));
        messages.push(message_of_type("ORU^R01", &["PID", first, "EVN"]));
    }
    messages
}

/// Groups that repeat within groups; the observation group, whose body may be empty and may begin
/// with an NTE of its own; and lists behind all of them.
fn groups_of_an_oru() -> Vec<Bytes> {
    let lists = [
        "OBR OBR OBR",
        "ORC OBR ORC OBR",
        "OBR ORC OBR",
        "ORC ORC OBR",
        "ORC",
        "OBR ORC",
        "OBR ORC DSC",
        "PID OBR PID OBR",
        "PID OBR PID",
        "PID OBR PID DSC",
        "PID PID OBR",
        "OBR PID OBR",
        "OBR PID PV1 OBR",
        "OBR PD1",
        "PID NTE OBR NTE NTE OBX NTE NTE",
        "OBR NTE NTE NTE XXX",
        "OBR OBX OBX OBX XXX",
        "OBR OBX NTE OBX NTE NTE OBX XXX",
        "OBR NTE OBX",
        "OBR NTE OBX NTE XXX",
        "OBR NTE CTI NTE",
        "OBR CTI CTI CTI",
        "OBR CTI NTE",
        "OBR CTI OBX",
        "OBR CTI ORC XXX",
        "OBR CTI PID XXX",
        "OBR CTI XXX",
        "OBR OBX CTI OBX",
        "OBR OBX PV1",
        "OBR OBX PD1",
        "OBR OBX PID XXX",
        "OBR OBX PID PV1 XXX",
        "OBR OBX PID PV1 PV2 XXX",
        "OBR OBX PID PV1 NTE",
        "PID NK1 NK1 NTE NTE PV1 PV2 OBR",
        "PID NK1 PD1",
        "PID NTE NK1",
        "PID NTE PD1",
        "PID NTE XXX",
        "PID PV1 PV1",
        "PID PV1 NTE",
        "PID PV1 XXX",
        "PID PV1 PV2 XXX",
        "PID PV2",
        "PID PD1 PV2",
        "PID PD1 NK1 PV1 ORC XXX",
        "PID OBX",
        "PID DSC",
        "PID NTE OBX",
        "PID NTE DSC",
        "OBR DSC DSC",
        "OBR DSC XXX",
        "OBR DSC OBR",
        "OBR OBX NTE CTI DSC PID",
        "DSC",
        "OBX",
        "NTE OBR",
        "OBR OBX NTE CTI ORC OBR NTE OBX NTE CTI PID PD1 PV1 OBR OBX OBR CTI DSC",
        "OBR OBX NTE CTI ORC OBR NTE OBX NTE CTI PID PD1 PV1 OBR OBX OBR CTI XXX",
    ];
    lists.map(|names| named("ORU^R01", names)).to_vec()
}

fn groups_of_others() -> Vec<Bytes> {
    [
        ("ADT^A40", "EVN PID MRG PID MRG PID MRG"),
        ("ADT^A40", "EVN PID MRG PV1 PID PD1 MRG PV1"),
        ("ADT^A40", "EVN PID MRG PID"),
        ("ADT^A40", "EVN PID MRG PID PD1"),
        ("ADT^A40", "EVN PID MRG MRG"),
        ("ADT^A40", "EVN PID MRG PV1 PV1"),
        ("ADT^A40", "EVN PID MRG PV1 PID XXX"),
        ("ADT^A40", "EVN PID MRG PD1"),
        ("ADT^A40", "EVN PID MRG EVN"),
        ("ADT^A40", "EVN PID PV1 MRG"),
        ("ADT^A01", "EVN PID NK1 NK1 NK1 PV1"),
        ("ADT^A01", "EVN PID NK1 NK1 XXX"),
        ("ADT^A01", "EVN PID PV1 AL1 AL1 IN1 IN1 XXX"),
        ("ADT^A01", "EVN PID PV1 IN1 AL1"),
        ("ADT^A01", "EVN PID PV1 AL1 PV2"),
        ("ADT^A01", "EVN PID PV1 NK1"),
        ("ADT^A01", "EVN PID PID"),
        ("ADT^A02", "EVN PID NK1"),
        ("ADT^A02", "EVN PID PV1 AL1"),
        ("ADT^A12", "EVN PID PV1 PV2 IN1"),
        ("ACK", "MSA MSA"),
        ("ACK", "ERR"),
        ("ACK", "MSA ERR ERR"),
        ("ACK", "MSA ERR XXX"),
        ("ACK", "EVN"),
    ]
    .map(|(message_type, names)| named(message_type, names))
    .to_vec()
}

/// Z segments that the structure doesn't name are taken out, and counted in places.
fn foreign_z_segments() -> Vec<Bytes> {
    let mut messages: Vec<Bytes> = [
        ("ORU^R01", "ZZZ"),
        ("ORU^R01", "ZZZ Z01"),
        ("ORU^R01", "ZZZ OBR"),
        ("ORU^R01", "OBR ZZZ"),
        ("ORU^R01", "OBR ZZZ EVN"),
        ("ORU^R01", "OBR EVN ZZZ"),
        ("ORU^R01", "ZZZ ZZZ OBR ZZZ OBX ZZZ NTE ZZZ DSC ZZZ"),
        ("ORU^R01", "ZZZ ZZZ OBR ZZZ OBX ZZZ NTE ZZZ DSC ZZZ NTE"),
        ("ORU^R01", "OBR DSC ZZZ ZPD ZVI"),
        ("ORU^R01", "ZVI PID ZPD ORC"),
        ("ORU^R01", "ZVI PID ZPD ORC ZDS"),
        ("ORU^R01", "PID ZBR"),
        ("ORU^R01", "PID ZBX ZTE ZID"),
        ("ACK", "ZZZ"),
        ("ACK", "ZZZ MSA ZPD ERR Z99"),
        ("ACK", "ZZZ MSA ZPD ERR Z99 ERR"),
        ("ADT^A40", "EVN ZVI PID ZPD MRG ZZZ PV1 Z1A"),
        ("ADT^A40", "EVN ZVI PID ZPD ZZZ"),
        ("ADT^A40", "ZVI ZPD"),
        ("ADT^A40", "EVN PID MRG ZVI PD1"),
        ("ADT^A01", "EVN ZPI PID ZVD PV1 ZZZ"),
        ("ADT^A01", "EVN PID PV1 ZZZ ZVI Z00 ZPD ZPE"),
    ]
    .map(|(message_type, names)| named(message_type, names))
    .to_vec();
    for (message_type, names) in FULLEST {
        let spaced = names.replace(' ', " ZZZ ");
        messages.push(named(message_type, &format!("ZZZ {spaced} ZZZ")));
    }
    // A name with a Z that is not its first letter is no Z segment.
    messages.extend(["NZZ", "OZ1", "AZZ OBR"].map(|names| named("ORU^R01", names)));
    messages
}

/// Z segments that the structure names "are held to their places" (ruling 21).
fn named_z_segments() -> Vec<Bytes> {
    let mut messages = Vec::new();
    for message_type in ["ADT^A01", "ADT^A02"] {
        for names in [
            "EVN PID PV1 ZVI", "EVN PID PV1 ZPD", "EVN PID PV1 ZVI ZPD", "EVN PID PV1 ZPD ZVI",
            "EVN PID PV1 ZVI ZVI", "EVN PID PV1 ZPD ZPD", "EVN PID PV1 ZVI PV2",
            "EVN PID PV1 ZPD PV2", "EVN PID PV1 ZVI XXX", "EVN PID PV1 ZPD XXX",
            "EVN PID PV1 ZPD ZZZ ZPD", "EVN PID PV1 ZVI ZZZ ZPD", "EVN PID PV1 ZVI AL1",
            "EVN PID ZVI PV1", "EVN PID ZPD PV1", "EVN ZVI PID PV1", "ZVI EVN PID PV1",
            "ZZZ ZPD EVN PID PV1", "EVN PID ZVI", "EVN PID ZZZ", "ZPD", "ZZZ",
        ] {
            messages.push(named(message_type, names));
        }
    }
    messages
}

/// MSH-9 as it may be spelt, before segments that tell apart which structure was chosen.
fn spellings() -> Vec<Bytes> {
    let spellings = [
        "", "^", "~", "&", "\"\"", "\"\"^\"\"", " ", "R01", "^R01", "ORU", "ORU^", "ORU^^",
        "ORU^R01", "ORU^R01^", "ORU^R01^ORU_R01", "ORU^R01^XXX^Y", "ORU^R01^\"\"", "ORU^R01~",
        "ORU^R01~ACK", "ORU~R01", "~ORU^R01", "ACK~ORU^R01", "ADT~ORU^R01", "ORU&R01", "ORU^R01&",
        "ORU^R01&x", "ORU&^R01", "ORU&x^R01", "ORU^&R01", "ORU^^R01", "^ORU^R01", "oru^r01",
        "ORU^r01", "Oru^R01", " ORU^R01", "ORU ^R01", "ORU^ R01", "ORU^R01 ", "ORU^R02",
        "ORU^R010", "ORU^R0", "ORU^R", "ORU^R01R01", "ORUX^R01", "OR^R01", "ORUR01", "ORU_R01",
        "ORU^A01", "ORU^ACK", "ORU^\"\"", "\"ORU\"^R01", "ORU^\"R01\"", r"ORU\S\R01",
        r"\X4F5255\^R01", r"ORU^R\X3031\", "ACK", "ACK^", "ACK^^", "ACK^R01", "ACK^R01^ACK",
        "ACK^A01", "ACK^A40", "ACK^XXX", "ACK^\"\"", "ACK^ ", "ACK^&", "ACK^a&b", "ACK^^ACK",
        "ACK~", "ACK~ACK", "ACK~ADT^A01", "~ACK", "^ACK", "ACK&", "ACK&x", "ACK&x^R01", "ACK&^R01",
        "ack", "Ack^R01", "ACK ", " ACK", "AC", "ACKK", "\"ACK\"", "ACK\"\"", r"ACK\F\", r"\ACK",
        "MCF", "ADT", "ADT^", "ADT^A01", "ADT^A01^ADT_A01", "ADT^A01^ADT_A40", "ADT^A01~ADT^A40",
        "ADT^A01&", "adt^a01", "ADT^a01", "ADT^A1", "ADT^01", "ADT^A001", "ADT^A02",
        "ADT^A02^ADT_A02", "ADT^A02~x", "ADT^A12", "ADT^A12^ADT_A12", "ADT^A12^ADT_A09", "ADT^A40",
        "ADT^A40^ADT_A39", "ADT^A40~ADT^A01", "ADT^A03", "ADT^A00", "ADT^A04", "ADT^A10",
        "ADT^A11", "ADT^A13", "ADT^A39", "ADT^A41", "ADT^A20", "ADT^A21", "ADT^R01", "ADT^^A01",
        "ADT&A01", "ADT~A01", "ADT^A01A40", "ADT^ACK", "ADTX^A01", "AD^A01", "ÁDT^A01",
    ];
    spellings.map(|spelling| message_of_type(spelling, &["EVN", "PID"])).to_vec()
}

/// Messages that fit the structure of another type than theirs, and of types that have none.
fn types_with_other_structures() -> Vec<Bytes> {
    let mut messages = Vec::new();
    for message_type in ["ORU^R01", "ACK", "ADT^A40", "ADT^A01", "ADT^A02", "ADT^A12", "ORU^R02"] {
        for (_, names) in &LEAST[..4] {
            messages.push(named(message_type, names));
        }
        messages.push(named(message_type, ""));
    }
    messages
}

/// Headers that end before MSH-9 or run on behind it, and delimiters other than the usual.
fn headers() -> Vec<Bytes> {
    vec![
        message(&[r"MSH|^~\&"]),
        message(&[r"MSH|^~\&", "OBR"]),
        message(&[r"MSH|^~\&|ORU^R01", "OBR"]),
        message(&[r"MSH|^~\&||||||ORU^R01", "OBR"]),
        message(&[r"MSH|^~\&||||||||ORU^R01", "OBR"]),
        message(&[r"MSH|^~\&|||||||", "OBR"]),
        message(&[r"MSH|^~\&|||||||ORU^R01|A7|P|2.4", "OBR"]),
        message(&[r"MSH|^~\&|LAB|PATH|GP|CLINIC|2024||ORU^R01|A7|P|2.4", "OBR"]),
        message(&[r"MSH|^~\&|ACK|ACK|ACK|ACK|ACK|ACK|ORU^R01|ACK", "MSA"]),
        message(&[r"MSH|^~\&|||||||ACK|ORU^R01", "MSA|AA"]),
        message(&["MSH#$%*@#######ORU$R01", "OBR#1"]),
        message(&["MSH#$%*@#######ORU$R01%x", "OBR#1", "EVN#"]),
        message(&["MSH#$%*@#######ORU^R01", "OBR#1"]),
        message(&["MSH#$%*@#######ORU@R01", "OBR#1"]),
        message(&["MSH#$%*@#######ACK", "MSA"]),
        message(&["MSH#$%*@#######ACK^R01", "MSA"]),
        message(&["MSH#$%*@#######ACK%ACK", "MSA"]),
        message(&[r"MSH|~^\&|||||||ADT~A01^x", "EVN", "PID", "XXX"]),
        message(&[r"MSH|~^\&|||||||ADT^A01~x", "EVN", "PID", "XXX"]),
        message(&[r"MSH|&~\^|||||||ADT&A40^x", "EVN", "PID"]),
        message(&[r"MSH|&~\^|||||||ADT&A40&x", "EVN", "PID"]),
        message(&[r"MSH\&~^|\\\\\\\ADT&A02", r"EVN\", r"PID\", r"PV1\", "ZPD", "ZVI"]),
    ]
}

/// Fields don't matter, whatever they hold: a name that stands in one, a null, any separators.
fn contents() -> Vec<Bytes> {
    vec![
        message_of_type("ORU^R01", &["OBR|1|OBX|EVN", "OBX|1|NM|x||OBR", "NTE|"]),
        message_of_type("ORU^R01", &[r#"PID|""|""|^~&"#, "ORC|^OBR", "ZBR|OBR"]),
        message_of_type("ORU^R01", &["PID||MRG", "OBR|EVN", "EVN|OBX|"]),
        message_of_type("ADT^A01", &["EVN|A40", "PID|é", "PV1|ZPD", "ZPD|ZVI", "ZVI"]),
        message_of_type("ACK", &["MSA|AE|A7", "ERR|PID^1^3", "ERR|"]),
        message_of_type("ACK|MSA", &["ERR|MSA"]),
    ]
}

/// Each reading fault comes before 20, 21 and 22.
fn reading_faults() -> Vec<Bytes> {
    let texts = [
        "",                                        // 1
        "MSH|^~\\&",                               // 2
        "MSH|^~\\&A||||||ORU^R01\rOBR\r",          // 2
        "MSH|^~\\^|||||||ORU^R01\rOBR\r",          // 3
        "MSH|^~\\&|||||||ORU^R01\rEVN|\u{80}\r",   // 4
        "MSH|^~\\&|||||||ORU^R01\r\nOBR\r\n",      // 4
        "MSH|^~\\&|||||||ORU^R01\rOBR",            // 5
        "MSH|^~\\&|||||||XXX\rEVN\robr\r",         // 6
        "MSH|^~\\&|||||||ORU^R01\rEVN\r\r",        // 6
        "MSH|^~\\&|||||||ORU^R01\rEVN\rMSH|\r",    // 7
        "MSH|^~\\&|||||||ACK\rMSH\rMSA\r",         // 7
        "MSH|^~\\&|||||||ADT^A01\rEVN\rPID\rZP\r", // 6
    ];
    texts.iter().map(|text| latin(text)).collect()
}

/// Lines that come near a question of this verb.
fn no_questions() -> Vec<Bytes> {
    let lines = [
        "structure", "structure ", "structure -", "structure - ", "structure - -", "structure  -",
        "structure 4", "structure 4d", "structure 4D", "structure 4g", "structure 4d 4d",
        "structure 4d 0", " structure -", "structures -", "Structure -", "STRUCTURE -",
        "structure-", "structure\t-", "structure -\r", "structure 4d5",
    ];
    lines.map(|line| line.as_bytes().to_vec()).to_vec()
}
