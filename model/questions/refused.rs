//! Messages with a header that is acknowledged and with a fault or several, so that each letter
//! comes up: each number at each place that can give it, and each fault that is answered AR with
//! the others before it and behind it in the judges' order. There is no 2, no 3, no 37 at MSH-10
//! and no fault of MSA-1: what has one of those is not acknowledged. What is too long is not here.

use super::filled::{header_of_oru, segment, Field};
use super::{latin, message, padded, Bytes, LONG_IDS};

/// What MSH-9 may hold: "components 1 and 2 of MSH-9, repetition 1, compared as raw bytes". Most
/// are no type, some are ACK, which is not acknowledged, and some are listed with something behind.
pub const TYPES: [&str; 77] = [
    "ORU^R02", "ORU^R00", "ORU^R1", "ORU^R011", "ORU^A01", "ORU^A40", "ORU^", "ORU", "ORU^\"\"",
    "ADT^A03", "ADT^A04", "ADT^A10", "ADT^A41", "ADT^R01", "ADT^", "ADT", "ADT^\"\"", "ORM^O01",
    "ORM^R01", "MDM^T02", "QRY^A40", "OR^R01", "ORUU^R01", "RU^R01", "^R01", "", "^", "^^", "\"\"",
    "\"\"^R01", "\"\"^\"\"", "\"ORU\"^R01", "oru^R01", "Oru^R01", "ORU^r01", "adt^A01", "ADT^a01",
    " ORU^R01", "ORU ^R01", "ORU^ R01", "ORU^R01 ", "ORU&^R01", "ORU&x^R01", "&ORU^R01",
    "ORU^R01&", "ORU^R01&x", "ORU^&R01", "ORU&R01", "ORU_R01", "ORUR01", "ORU^^R01", "^ORU^R01",
    "~", "~ORU^R01", "ORU~ORU^R01", "ORU^~ORU^R01", "ORM^O01~ORU^R01", "ORU^R02~ADT^A01", "&",
    r"\X4F\RU^R01", r"ORU\S\R01", r"ORU^\X523031\", r"ORU^R01\", "ÖRU^R01", "R01^ORU", "A01",
    "ACK&", "ACK&^R01", "AC^K", "ack", "ACKK", " ACK", "ORU^R01^x", "ORU^R01^ORU_R01~ACK",
    "ORU^R01~", "ACK", "ACK^R01",
];

/// MSH-11: its list, what comes near a value of it or would be one elsewhere, the other states, and
/// more than one repetition.
pub const PROCESSING_IDS: [&str; 58] = [
    "P", "D", "T", "X", "A", "p", "d", "t", "PP", "PD", "DPT", "D P T", "P ", " P", " ", "P.", "0",
    "é", "2.4", "AA", "P&", "P&P", "P&x", "&P", "P^", "P^A", "P^X", "T^&", "X^P", "X^", "p^P",
    "X&P", "P&^P", "^P", "^X", "&^P", "&", "^", "", "\"\"", "\"\"^P", "\"\"&", "\"P\"", "P\"\"",
    "\"", "~", "P~", "~P", "P~P", "P~X", "X~P", "X~X", "X~", "~X", "\"\"~X", r"\X50\", r"P\",
    r"\T\",
];

/// MSH-12 in the same way.
pub const VERSIONS: [&str; 58] = [
    "2.4", "2.5", "2.3", "2.3.1", "2.4.1", "2.1", "2.6", "2", "2.", ".4", "4", "24", "2,4", "2.40",
    "2.04", "02.4", " 2.4", "2.4 ", "2. 4", "v2.4", "+2.4", "2.4é", "P", " ", "2.4&", "2.4&AUS",
    "&2.4", "2.4^", "2.4^2.5", "2.4^AUS&&ISO", "2.5^2.4", "2.5^", "2.5&2.4", "2.4&^2.4", "^2.4",
    "^2.5", "&^2.4", "&", "^", "", "\"\"", "\"\"^2.4", "\"\"&2.4", "\"2.4\"", "~", "2.4~", "~2.4",
    "2.4~2.4", "2.4~2.5", "2.5~2.4", "2.5~2.5", "~2.5", "\"\"~2.5", "2.5~\"\"", r"\X32\.4",
    r"\X322E34\", r"2.4\", r"2\.4",
];

/// A header of an ORU with each of the three faults that are answered AR, with all of them, and
/// with none.
fn headers() -> Vec<String> {
    let faults = [(9, "ORU^R02"), (11, "X"), (12, "2.5")];
    let mut headers = faults.map(|fault| header_of_oru(&[fault])).to_vec();
    headers.push(header_of_oru(&faults));
    headers.push(header_of_oru(&[]));
    headers
}

/// A header of an ORU with each content of each of these fields.
fn headers_filled(contents: &[(usize, &[&str])]) -> Vec<String> {
    let mut filled: Vec<Vec<Field>> = vec![Vec::new()];
    for &(field, contents) in contents {
        filled = filled
            .iter()
            .flat_map(|fields| {
                contents.iter().map(|&content| [&fields[..], &[(field, content)]].concat())
            })
            .collect();
    }
    filled.iter().map(|fields| header_of_oru(fields)).collect()
}

/// Every way to have a fault of every number, or none, in each of the fields of a header: "rows as
/// above; in a row 31 or 34, then 36", then 32 or 33. And with 20, which comes before.
pub fn faults_of_a_header() -> Vec<Bytes> {
    let times = (7, &["2024", "", "\"\"", "2024~", "x"][..]);
    let control_ids = (10, &["1", "~A", "\"\"~A", "A~B"][..]);
    let processing_ids = (11, &["P", "", "\"\"", "P~X", "X~P", "X"][..]);
    let versions = (12, &["2.4", "", "\"\"", "2.4~2.5", "2.5~2.4", "2.5"][..]);
    let no_type = (9, &["ORU^R02"][..]);
    let headers = [
        headers_filled(&[times, control_ids, processing_ids, versions]),
        headers_filled(&[no_type, times, processing_ids]),
        headers_filled(&[no_type, control_ids, versions]),
    ];
    headers.concat().iter().map(|header| message(&[header, "OBR"])).collect()
}

/// Each type with segments of each structure behind the header, and with none; and the events
/// about those that are listed.
pub fn types() -> Vec<Bytes> {
    let mut messages = Vec::new();
    for message_type in TYPES {
        let header = segment("MSH", &[(9, message_type)]);
        messages.push(message(&[&header]));
        messages.push(message(&[&header, "OBR"]));
        messages.push(message(&[&header, "EVN", "PID|||1||A", "PV1"]));
        messages.push(message(&[&header, "EVN", "PID|||1||A", "MRG"]));
        messages.push(message(&[&header, "MSA|AA"]));
        messages.push(message(&[&header, "MSA|XX"]));
    }
    for number in 0..=62 {
        let header = segment("MSH", &[(9, &format!("ADT^A{number:02}"))]);
        messages.push(message(&[&header, "EVN", "PID|||1||A", "PV1"]));
        let header = segment("MSH", &[(9, &format!("ORU^R{number:02}"))]);
        messages.push(message(&[&header, "OBR"]));
    }
    messages
}

/// Each content of MSH-11 with a good MSH-12 and with one of each fault, and the other way about;
/// and headers that end before one of them.
pub fn processing_ids_and_versions() -> Vec<Bytes> {
    let mut headers =
        headers_filled(&[(11, &PROCESSING_IDS), (12, &["2.4", "2.5", "", "\"\"", "2.4~"])]);
    headers.extend(headers_filled(&[(11, &["P", "X", "", "\"\"", "P~"]), (12, &VERSIONS)]));
    for end in ["", "|", "|P", "|X", "|X^P", "|P~X", "|\"\"", "|P|", "|X|", "||2.5", "||2.4"] {
        headers.push(format!(r"MSH|^~\&|||||2024||ORU^R01|1{end}"));
        headers.push(format!(r"MSH|^~\&|||||x||ORU^R01|1{end}"));
        headers.push(format!(r"MSH|^~\&|||||2024||ORU^R02|1{end}"));
    }
    headers.iter().map(|header| message(&[header, "OBR"])).collect()
}

/// Good and bad headers, of an ACK too, with each MSH-10 that is not acknowledged, and with those
/// that just are.
pub fn control_ids() -> Vec<Bytes> {
    let repeated = [199, 200].map(|length| padded("~", length));
    let headers = headers_filled(&[
        (9, &["ORU^R01", "ORU^R02", "ACK^R01"]),
        (11, &["P", "X"]),
        (12, &["2.4", "2.5"]),
        (
            10,
            &[
                "", "^", "~", "\"\"", "\"\"~\"\"", "A23456789012345678901", LONG_IDS[0],
                LONG_IDS[1], &repeated[0], &repeated[1],
            ],
        ),
    ]);
    headers.iter().map(|header| message(&[header, "OBR"])).collect()
}

/// Each of the headers with everything that may stand behind it.
pub fn faults_behind_headers() -> Vec<Bytes> {
    let behind = [not_read(), out_of_place(), of_fields()].concat();
    let mut messages = Vec::new();
    for header in headers() {
        let header = message(&[&header]);
        messages.extend(behind.iter().map(|behind| [&header[..], behind].concat()));
    }
    messages
}

/// Faults 4 to 7 behind a header, alone, and two at once: 4 comes first and then 5, and of 6 and 7
/// the leftmost.
fn not_read() -> Vec<Bytes> {
    let forbidden_bytes = [
        "\n", "\0", "\u{1C}\r", "O\tR\r", "OBR|\u{7F}\r", "OBR|x\u{80}\r", "OBR\r\u{9F}", "OBR\r\n",
    ];
    let not_ended = [" ", "OBR", "OBR|", "OBR\rOBX", "OBR\r|"];
    let badly_named =
        ["\r", "\rOBR\r", "OBR\r\r", "obr\r", "OBR\rOB\r", "OBRX\r", "1BR\r", "OBR^\r", "MSHX\r"];
    let second_headers =
        ["MSH\r", "MSH|\r", "OBR\rMSH\r", "OBR\rMSH|^~\\&|||||2024||ORU^R01|1|P|2.4\r"];
    let two_at_once = ["obr\r\n", "obr\n", "obr", "MSH", "obr\rMSH\r", "MSH\robr\r"];
    let texts: [&[&str]; 5] =
        [&forbidden_bytes, &not_ended, &badly_named, &second_headers, &two_at_once];
    texts.concat().into_iter().map(latin).collect()
}

/// 21 at each segment, and 22 behind each where that can be; with a fault of a field, which comes
/// later, and without one.
fn out_of_place() -> Vec<Bytes> {
    let foreign = [
        "EVN\r", "MSA|XX\r", "OBX|x\r", "PID|||1||A\rEVN\rOBR\r", "PID\rEVN\r", "OBR\rEVN\r",
        "OBR|x\rEVN\r", "OBR\rOBX|||1||||||||F\rEVN\r", "OBR\rOBX|||1||||||||p\rMSA\r",
        "OBR\rDSC\rDSC\r", "ZZZ\rZZ1\rEVN\r",
    ];
    let too_few = [
        "", "ZZZ\r", "PID|||1||A\r", "PID|||||||x|X\r", "PID|||1||A\rORC\r", "OBR\rORC\r",
        "OBR\rPID|||1||A\r", "OBR\rORC\rZZZ\r",
    ];
    foreign.into_iter().chain(too_few).map(latin).collect()
}

/// Of each row behind the header, contents of each number that it can give: first 31 and 34, then
/// 36, then 32 or 33. MSH-11 and MSH-12 would hold some of them, and others are near.
const FAULTS: [(&str, usize, &[&str]); 10] = [
    ("PID", 3, &["", "^", "~1", "\"\"", "\"\"~1"]),
    ("PID", 5, &["", "&", "~A", "\"\"", "\"\"~A"]),
    ("PID", 7, &["1970~", "~x", "x", "x^1970", "2.4"]),
    ("PID", 8, &["F~", "~X", "X", "P", "2.4", "f", "F^", "\"\"^"]),
    ("OBR", 1, &["1~1", "~x", "x", "10000", "2.4"]),
    ("OBX", 1, &["1~1", "~x", "x", "10000", "2.4"]),
    ("OBX", 2, &["NM~", "~XX", "XX", "P", "2.4", "nm", "NM^"]),
    ("OBX", 3, &["", "^", "\"\"", "1~1", "~1"]),
    ("OBX", 11, &["", "^", "~F", "\"\"", "\"\"~F", "F~", "F~X", "T", "E", "2.4", "p", "P^", "P&"]),
    ("OBX", 14, &["2024~", "~x", "x", "x^2024", "2.4"]),
];

/// Of OBX-2 and OBX-5, each number that OBX-5 can give: 35 where OBX-2 is not present, and 32 or 37
/// in the first repetition or in a later one.
const VALUES: [(&str, &str); 18] = [
    ("", "5"),
    ("", "~~5"),
    ("\"\"", "^x"),
    ("^", "\"\"~5"),
    ("NM", "x"),
    ("NM", "5~x"),
    ("NM", "\"\"~~x~5"),
    ("NM", "1234567890123456789"),
    ("NM", "5~1234567890123456789"),
    ("NM", "~x~1234567890123456789"),
    ("DT", "x"),
    ("DT", "2024~20230229"),
    ("TM", "x"),
    ("TM", "09~2400"),
    ("TS", "x"),
    ("TS", "2024^x~x^2024"),
    ("TS", "^x~&x"),
    ("ST", "x~1234567890123456789"),
];

/// What is accepted, and each of these faults in the shortest that can stand behind a header.
pub fn of_fields() -> Vec<Bytes> {
    let mut behind = vec![latin("OBR\r"), latin("PID|||1||A\rOBR|1\rOBX|||1||||||||F\r")];
    for (name, field, contents) in FAULTS {
        for content in contents {
            behind.push(around(&segment(name, &[(field, content)])));
        }
    }
    for (value_type, value) in VALUES {
        behind.push(around(&segment("OBX", &[(2, value_type), (5, value)])));
    }
    behind
}

fn around(segment: &str) -> Bytes {
    match &segment[..3] {
        "PID" => message(&[segment, "OBR"]),
        "OBX" => message(&["OBR", segment]),
        _ => message(&[segment]),
    }
}

/// The other structures that are acknowledged: accepted, with a foreign segment at each place, cut
/// behind each segment, and with each fault of PID. MSH-11 and MSH-12 are good or bad.
pub fn admissions() -> Vec<Bytes> {
    let mut messages = Vec::new();
    for (message_type, last) in
        [("ADT^A40", "MRG"), ("ADT^A01", "PV1"), ("ADT^A02", "PV1"), ("ADT^A12", "PV1")]
    {
        let headers =
            headers_filled(&[(9, &[message_type]), (11, &["P", "X"]), (12, &["2.4", "2.5"])]);
        for header in headers {
            messages.extend(admissions_behind(&header, last));
        }
    }
    messages
}

fn admissions_behind(header: &str, last: &str) -> Vec<Bytes> {
    let whole = [header, "EVN", "PID|||1||A", last];
    let mut messages = vec![message(&whole)];
    for at in 1..=whole.len() {
        messages.push(message(&[&whole[..at], &["OBR"], &whole[at..]].concat()));
        messages.push(message(&whole[..at]));
    }
    for (_, field, contents) in FAULTS.iter().filter(|(name, ..)| *name == "PID") {
        for content in *contents {
            let faulty = segment("PID", &[(*field, content)]);
            messages.push(message(&[header, "EVN", &faulty, last]));
            if last == "MRG" {
                messages.push(message(&[&whole[..], &[&faulty, last]].concat()));
            }
        }
    }
    messages
}

/// Faults whose segment or repetition is the number of a field or of a fault that AR is about.
pub fn telling_places() -> Vec<Bytes> {
    let mut messages = Vec::new();
    for header in headers() {
        for place in [11, 12, 20, 33] {
            let mut segments = vec![&header[..], "OBR"];
            segments.resize(place, "NTE");
            let value = "5~".repeat(place - 1) + "x";
            let value = segment("OBX", &[(5, &value)]);
            messages.push(message(&[&segments[..], &["PID|||1||A|||X", "OBR"]].concat()));
            for last in ["EVN", "ORC", "OBR|x", "OBX|||1||||||||2.4", &value] {
                messages.push(message(&[&segments[..], &[last]].concat()));
            }
        }
    }
    messages
}
