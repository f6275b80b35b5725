//! Fresh questions of the verb `ack`: random messages of every kind, headers that are hard to
//! acknowledge, messages that are answered AR or nearly so, and such as have a fault at one of many
//! segments of a name or a segment out of its place; times and IDs mostly good; and buffers about as
//! large as is enough, or as would be enough with no ERR.

use super::error_places::RESULT;
use super::refused::{PROCESSING_IDS, TYPES, VERSIONS};
use super::verdict_wide::TELLING;
use super::{
    ack_question, enough_for, latin, read_fresh, sound, structure_fresh, value_fresh, verdict_fresh,
};
use super::{filled, message, stretched, Bytes, USUAL_DELIMITERS};
use crate::ask::{LONGEST_HELD, MOST_ROOM};
use crate::chance::Chance;
use crate::reading::{CR, LONGEST_ID};

pub fn fresh(chance: &mut Chance) -> Bytes {
    if chance.one_in(1000) {
        return of_a_long_header(chance);
    }
    let message = match chance.below(16) {
        0..=2 => hard_header(chance),
        3..=6 => to_be_rejected(chance),
        7..=10 => one_of_many(chance),
        11..=12 => out_of_place(chance),
        _ if chance.one_in(150) => long_message(chance),
        _ => verdict_fresh::random_message(chance),
    };
    let time = random_time(chance);
    let id = random_id(chance);
    let room = random_room(chance, &message, &time, &id);
    ack_question(&message, &time, &id, room)
}

/// A message with up to three faults that are answered AR, or nearly so; and every other time with
/// a fault of another kind, which may come before them in the judges' order or behind them.
fn to_be_rejected(chance: &mut Chance) -> Bytes {
    let mut segments = verdict_fresh::filled_segments(chance);
    for _ in 0..chance.pick(&[0, 1, 1, 1, 1, 2, 2, 3]) {
        let (field, contents): (usize, &[&str]) =
            chance.pick(&[(9, &TYPES), (11, &PROCESSING_IDS), (12, &VERSIONS)]);
        segments[0][field] = latin(chance.pick(contents));
    }
    let fault = chance.below(12);
    match fault {
        0..=2 => verdict_fresh::put_fault(chance, &mut segments),
        3 => segments.truncate(chance.between(1, segments.len())),
        4 => {
            let foreign = vec![latin(chance.pick(&["EVN", "MSA", "DG1", "MSH|", "OBX|x", "obr"]))];
            segments.insert(chance.between(1, segments.len()), foreign);
        }
        _ => {}
    }
    let mut message = verdict_fresh::sent(chance, segments);
    if fault == 5 {
        damage_behind_the_header(chance, &mut message);
    }
    message
}

/// Segments that are sound behind an OBR, in any order.
const SOUND: [&str; 8] = [RESULT, RESULT, "NTE", "NTE", "OBR", "OBR|1", "ZZZ", "ZVI"];

/// What may come up often in an ORU, and the same with a fault of a field, or where it cannot stand.
const OFTEN: [(&str, &[&str]); 4] = [
    (
        RESULT,
        &[
            "OBX",
            "OBX|||1",
            "OBX|||\"\"||||||||F",
            "OBX|x||1||||||||F",
            "OBX||XX|1||||||||F",
            "OBX||NM~|1||||||||F",
            "OBX|||1||5||||||F",
            "OBX||NM|1||x||||||F",
            "OBX||NM|1||1234567890123456789||||||F",
            "OBX|||1||||||||Q",
            "OBX|||1||||||||\"\"",
            "OBX|||1||||||||F|||x",
            "OBX|||1||||||||F|||2024~",
            "CTI\rOBX",
        ],
    ),
    ("NTE", &["CTI\rNTE", "DSC\rNTE", "ORC\rNTE|x"]),
    ("OBR", &["OBR|x", "OBR|1~2", "OBR|10000", "DSC\rOBR"]),
    (
        "PID|||1||A\rOBR",
        &[
            "PID|||||A\rOBR", "PID|||1||\"\"\rOBR", "PID|||1||A||x\rOBR", "PID|||1||A|||X\rOBR",
            "PID|||1||A|||M~F\rOBR", "PID|||1||A\rPID",
        ],
    ),
];

/// Segments that cannot stand behind some others, or let what comes behind them no longer stand, or
/// cannot be read.
const FOREIGN: [&str; 16] = [
    "ORC", "CTI", "DSC", "EVN", "PV1", "PV2", "PD1", "MRG", "ERR|x", "MSA|AA", "PID|||1||A",
    "OBX|||1", "MSH", "obx|x", "OBX|\t", "",
];

/// An ORU of many segments, most of one name, with a fault or two: so a sequence may have two digits
/// or three, and very seldom four.
fn one_of_many(chance: &mut Chance) -> Bytes {
    let (often, faulty) = chance.pick(&OFTEN);
    let count = match chance.below(20) {
        0 => chance.between(110, 130),
        1 if chance.one_in(40) => chance.between(900, 3_500),
        1 => chance.between(110, 260),
        2..=7 => chance.between(10, 40),
        _ => chance.between(2, 12),
    };
    let header = filled::header_of_oru(&[]);
    let mut segments = vec![&header[..], "OBR"];
    for _ in 0..count {
        segments.push(if chance.one_in(8) { chance.pick(&SOUND) } else { often });
    }
    for _ in 0..chance.pick(&[0, 1, 1, 1, 1, 1, 2, 2]) {
        let first = if chance.one_in(4) { 1 } else { segments.len() - segments.len() / 8 };
        let at = chance.between(first, segments.len());
        let fault = if chance.one_in(3) { chance.pick(&FOREIGN) } else { chance.pick(faulty) };
        segments.insert(at, fault);
    }
    let delimiters = sound::random_delimiters(chance);
    let usual = message(&segments);
    usual.iter().map(|&byte| structure_fresh::translated(byte, delimiters)).collect()
}

/// Names of any structure but ACK's that mostly cannot all stand, with Z segments every third time,
/// and the fields of each filled.
fn out_of_place(chance: &mut Chance) -> Bytes {
    let (kind, event) = chance.pick(&[
        ("ORU", "R01"),
        ("ORU", "R01"),
        ("ADT", "A40"),
        ("ADT", "A01"),
        ("ADT", "A01"),
        ("ADT", "A02"),
        ("ADT", "A12"),
    ]);
    let names = structure_fresh::random_names(chance, kind, event);
    let segments = verdict_fresh::segments_of(chance, kind, event, &names);
    verdict_fresh::sent(chance, segments)
}

/// A sound header, and so much behind it that the message is about as long as the program holds.
fn long_message(chance: &mut Chance) -> Bytes {
    let behind = chance.pick(&["OBR|1|", "OBR|x|", "OBX|", "obr", "OBR\rOBX|||"]);
    let message = message(&[&filled::header_of_oru(&[]), behind]);
    stretched(message, chance.between(LONGEST_HELD - 1, LONGEST_HELD + 1))
}

fn damage_behind_the_header(chance: &mut Chance, message: &mut Bytes) {
    let header = message.iter().take_while(|&&byte| byte != CR).count() + 1;
    let mut behind = message.split_off(header.min(message.len()));
    read_fresh::damage(chance, &mut behind, 1);
    message.extend(behind);
}

/// A header of fields that are telling or nothing, whole or cut, alone or with something behind it.
fn hard_header(chance: &mut Chance) -> Bytes {
    let mut fields = vec![latin(r"MSH|^~\&")];
    for field in 3..=chance.pick(&[9, 10, 10, 11, 12, 12, 13]) {
        fields.push(hard_field(chance, field));
    }
    let delimiters = sound::random_delimiters(chance);
    let header = fields.join(&b'|');
    let mut header: Bytes =
        header.iter().map(|&byte| structure_fresh::translated(byte, delimiters)).collect();
    match chance.below(20) {
        0 => header.truncate(chance.below(header.len() + 1)),
        1 => {}
        _ => header.push(CR),
    }
    if chance.one_in(3) {
        header.extend(chance.pick(&["OBR\r", "\r", "\0", "x", "MSH\r", "OBR"]).as_bytes());
    }
    if chance.one_in(10) {
        read_fresh::damage(chance, &mut header, 1);
    }
    header
}

/// MSH-9 and MSH-10 are mostly such as are acknowledged, but only just.
fn hard_field(chance: &mut Chance, field: usize) -> Bytes {
    let kind = chance.below(6);
    match (field, kind) {
        (_, 0) => value_fresh::mixture(chance, USUAL_DELIMITERS),
        (_, 1) => latin(chance.pick(&TELLING)),
        (9, _) => latin(chance.pick(&[
            "", "^", "~", "ORU", "ORU^", "ORU^R01", "ORU^R01^x", "ORU^R01&x", "ORU^&", "ORU^\"\"",
            "^R01", "ORU~^R01", "ORU^R01~ACK", "ACK&", "ACK&x^R01", "ack", "ACK", "ACK^R01",
        ])),
        (10, 2) => {
            let length = about_longest(chance);
            (0..length).map(|_| chance.pick(b"A1~^&\"")).collect()
        }
        (10, _) => latin(chance.pick(&["1", "A7", "A~B", "~A", "A~", "\"\"~\"\"", "^A", "\"\"^"])),
        _ => latin(chance.pick(&["", "", "x", "LAB^L&x", "~", "a~b", "\"\"", "P", "2.4"])),
    }
}

/// A header about as long as the program holds, or with which the acknowledgement fills the largest
/// buffer, and so large a buffer.
fn of_a_long_header(chance: &mut Chance) -> Bytes {
    let length = LONGEST_HELD - chance.between(15, 90);
    let content: String = chance.pick(&["x", "xy~", "^"]).chars().cycle().take(length).collect();
    let header = format!(r"MSH|^~\&|{content}|||||||1|P");
    let room = MOST_ROOM as usize - chance.pick(&[0, 0, 1, 20]);
    ack_question(&message(&[&header]), b"20240229", &random_id(chance), room)
}

/// Mostly a TS that is one.
fn random_time(chance: &mut Chance) -> Bytes {
    match chance.below(8) {
        0 => value_fresh::random(chance, "ts", USUAL_DELIMITERS),
        1 if chance.one_in(4) => latin(chance.pick(&TELLING)),
        _ => latin(chance.pick(&["2024", "20240229", "20240229093001+1000", "202402-0030"])),
    }
}

/// About as long as a control ID may be, or as it might be before W6.
fn about_longest(chance: &mut Chance) -> usize {
    let longest = chance.pick(&[20, LONGEST_ID, LONGEST_ID]);
    chance.between(longest - 2, longest + 2)
}

/// Mostly a few bytes, of all kinds.
fn random_id(chance: &mut Chance) -> Bytes {
    let length = match chance.below(24) {
        0 => 0,
        1 => about_longest(chance),
        2 => chance.between(1, LONGEST_ID),
        3 => chance.between(1, 20),
        _ => chance.between(1, 4),
    };
    (0..length)
        .map(|_| match chance.below(6) {
            0 => chance.byte(),
            1 => chance.pick(&USUAL_DELIMITERS),
            2 => chance.pick(b"\"\"\r\n\0\x7F\x80\xA0"),
            _ => chance.pick(b"AK01-_\"\""),
        })
        .collect()
}

/// Mostly about as much as is enough, or less by up to what an ERR takes; or none, or more.
fn random_room(chance: &mut Chance, message: &[u8], time: &[u8], id: &[u8]) -> usize {
    let enough = enough_for(message, time, id);
    let room = match chance.below(20) {
        0..=8 => enough,
        9..=11 => enough.saturating_sub(1),
        12..=13 => enough + 1,
        14..=15 => enough.saturating_sub(chance.between(2, 20)),
        16 => chance.below(enough + 1),
        17 => message.len(),
        18 => chance.pick(&[0, 0, 1, 75, 76, 77, 255, 256]),
        _ => enough + chance.below(20),
    };
    room.min(MOST_ROOM as usize)
}
