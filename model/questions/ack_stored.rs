//! The stored questions of the verb `ack`: headers of every kind, good ones with every fault behind
//! them and hostile ones; the caller's time and ID in all forms; each number and code that ERR tells
//! of, and segments counted by their name; and buffers of every size around the one that is enough.
//! What is as large as a limit is not stored: the wide set has that.

use super::error_places::{self, delimited, DELIMITERS};
use super::filled::{header_of_oru, message_with, segment};
use super::{ack_question, changed, enough_for, latin, lifelike, message, message_of_type, padded};
use super::{Bytes, LONG_IDS};
use crate::reading::CR;

/// The shortest message that is acknowledged, with AR: it has no more than an MSH-10.
const SHORTEST: &[u8] = b"MSH|^~\\&||||||||1\r";

/// What its acknowledgement takes with the time and the ID below, and what it would take with no ERR.
const ENOUGH: usize = WITHOUT_ERROR + 16;
const WITHOUT_ERROR: usize = 39;

/// What the caller gives where it doesn't matter.
const TIME: &[u8] = b"2024";
const ID: &[u8] = b"K";

pub fn stored() -> Vec<Bytes> {
    let questions = [
        no_questions(),
        samples(),
        rooms(),
        times(),
        ids(),
        every_byte_in_an_id(),
        orders(),
        message_types(),
        control_ids(),
        copied_fields(),
        headers_cut(),
        headers_with_a_fault(),
        faults_behind_the_header(),
        letters(),
        first_of_several_faults(),
        other_delimiters(),
        letters_with_other_delimiters(),
        error_of_each_number(),
        segments_counted(),
        one_of_many(),
        lifelike_messages(),
    ];
    questions.concat()
}

/// A question with one byte of room more than the acknowledgement takes, or with room for one byte
/// where there is none.
fn acknowledged(message: &[u8], time: &[u8], id: &[u8]) -> Bytes {
    ack_question(message, time, id, enough_for(message, time, id) + 1)
}

/// Sample 13 of the paper, with rooms about enough; and with no segment behind the header, so that
/// it is not accepted, and an ERR of 11 bytes has to fit too.
fn samples() -> Vec<Bytes> {
    let header = r"MSH|^~\&|LAB|PATH|GP|CLINIC|20240229093000+1000||ORU^R01|A7|P|2.4";
    let time = b"20240229093001+1000";
    let accepted = message(&[header, "OBR|1"]);
    let mut lines: Vec<Bytes> =
        [76, 75, 77, 0].map(|room| ack_question(&accepted, time, b"K1", room)).to_vec();
    lines.extend([87, 86, 76].map(|room| ack_question(&message(&[header]), time, b"K1", room)));
    lines
}

/// No room or little; and from what would be enough with no ERR, less one byte, to one byte more than
/// enough: an acknowledgement "is never written without its ERR to make it fit" (W4's ruling 16).
fn rooms() -> Vec<Bytes> {
    let rooms = [0, 1, 16].into_iter().chain(WITHOUT_ERROR - 1..=ENOUGH + 1);
    rooms.map(|room| ack_question(SHORTEST, TIME, ID, room)).collect()
}

/// "The caller's time has to be TS as it stands" (ruling 28).
fn times() -> Vec<Bytes> {
    let texts = [
        "2024", "0001", "9999", "202402", "20240229", "202402290930", "20240229093001",
        "20240229093001.1", "20240229093001.12", "20240229093001.123", "20240229093001.1234",
        "2024+1000", "202402-0030", "20240229+0000", "202402290930-1459", "20240229093001+1030",
        "20240229093001.1234-0000", "", "\"\"", " ", "2", "20", "202", "0000", "20242", "202413",
        "202400", "2024022", "20240230", "20230229", "2024022909", "20240229093", "202402292400",
        "202402290960", "20240229093060", "20240229093001.", "20240229093001.12345",
        "202402290930.5", "20240229.5", "2024+", "2024+1", "2024+100", "2024+10000", "2024+1500",
        "2024-0060", "2024Z", "2024 ", " 2024", "+1000", "0930", "2024^", "2024^D", "2024|",
        "2024\r", "2024&", "2024~2024", "2O24", "2024-02-29", "20240229T0930", r"2024\X30\",
        "\"2024\"", "²024", "2024\0", "20240229093001.1234-00000",
    ];
    texts.iter().map(|text| acknowledged(SHORTEST, &latin(text), ID)).collect()
}

/// 17 counts the bytes handed in (ruling 27); what is written is escaped: "an ID of 199 NULs is
/// written in 995 bytes" (W6's ruling 20). 20 were the most before W6.
fn ids() -> Vec<Bytes> {
    let ids = [
        "", "1", "12", "12345678901234567890", "123456789012345678901", "\"", "\"\"", "\"\"\"",
        "\"\" ", " ", "~", "^", "|", r"\", r"\F\", r"\X2222\", r"|^~\&", "ÄÖÜ", "a\rb",
        LONG_IDS[0], LONG_IDS[1],
    ];
    let mut lines: Vec<Bytes> =
        ids.iter().map(|id| acknowledged(SHORTEST, TIME, &latin(id))).collect();
    for byte in [0, b'|', CR] {
        for length in [20, 21, 199, 200, 256] {
            lines.push(acknowledged(SHORTEST, TIME, &vec![byte; length]));
        }
    }
    // Room for the ID as it was handed in, and for more, until it is enough for what is written.
    lines.extend([0, 1, 2].map(|more| ack_question(SHORTEST, TIME, b"|", ENOUGH + more)));
    lines
}

/// All 256 bytes, sixteen to an ID.
fn every_byte_in_an_id() -> Vec<Bytes> {
    let every_byte: Bytes = (0..=0xFF).collect();
    every_byte.chunks(16).map(|id| acknowledged(SHORTEST, TIME, id)).collect()
}

/// "Acknowledging: 16, 17, 9, 10": each of them with and without each other.
fn orders() -> Vec<Bytes> {
    let mut lines = Vec::new();
    for time in [&b""[..], TIME] {
        for id in [&b""[..], ID] {
            for message in [&b""[..], b"MSH|^~\\&|||||||ACK|1\r", SHORTEST] {
                for room in [0, ENOUGH - 1, ENOUGH] {
                    lines.push(ack_question(message, time, id, room));
                }
            }
        }
    }
    lines
}

/// MSH-9 as it may be spelt: component 2 is taken over where it is present, and ACK is refused.
fn message_types() -> Vec<Bytes> {
    let spellings = [
        "", "^", "~", "&", "\"\"", "ORU", "ORU^", "ORU^^", "ORU^R01", "ORU^R01^ORU_R01",
        "ORU^^R01", "^R01", "^R01^", "\"\"^R01", "ORU^\"\"", "ORU^\"\"^x", "ORU^\"\"\"", "ORU^&",
        "ORU^&&", "ORU^&x", "ORU^R01&x", "ORU^R01~ADT^A01", "ORU~ADT^A01", "~ADT^A01", "ORU^~^A01",
        "ORU^R01~ACK", "ORU^ ", r"ORU^\S\", r"ORU\S\R01", "ORU&R01", "ORU&^R01", "ORU^Ä",
        "x^x^x^x", "ACK", "ACK^", "ACK^R01", "ACK^^x", "ACK~", "ACK~ORU^R01", "ACK^R01~x",
        "ACK^\"\"", "ACK&", "ACK&x", "ACK&^R01", "ack", "Ack^R01", "ACKX", "AC", " ACK", "ACK ",
        "\"ACK\"", "~ACK", "^ACK", "ORU^ACK", r"AC\X4B\",
    ];
    spellings.iter().map(|spelling| asked_of_header(&format!("{spelling}|1"))).collect()
}

/// A question about a header with these fields from MSH-9 on, and nothing behind it.
fn asked_of_header(fields: &str) -> Bytes {
    acknowledged(&message_of_type(fields, &[]), TIME, ID)
}

/// "MSH-10, the whole field, not present or over 199 bytes", and what comes back of it in MSA. 20
/// were the most before W6.
fn control_ids() -> Vec<Bytes> {
    let mut contents = [
        "", "^", "&", "~", "^&~", "~~~", "\"\"", "\"\"^", "\"\"~", "~\"\"", "\"\"~\"\"", "\"\"&",
        "\"", "\"\"\"", " ", "A~B", "~A", "A~", "A^B", "^A", "A&B", "&A", r"\F\", r"\", r"\X2222\",
        "Ä", "12345678901234567890", "123456789012345678901", "12345678901234567~890",
    ]
    .map(str::to_string)
    .to_vec();
    for length in [199, 200] {
        contents.extend(["", r"\X41\", "ÄÖÜ"].map(|front| padded(front, length)));
        contents.push(padded("", length - 4) + "~890");
        contents.push("~".repeat(length));
        contents.push("~".repeat(length - 1) + "A");
    }
    let mut lines: Vec<Bytes> =
        contents.iter().map(|content| asked_of_header(&format!("|{content}|P"))).collect();
    // Absent, and with nothing behind it.
    lines.extend(["ORU^R01", "ORU^R01|", "ORU^R01|1"].map(asked_of_header));
    lines
}

/// MSH-3 to MSH-6 change places, MSH-11 is copied, and all others are our own.
fn copied_fields() -> Vec<Bytes> {
    let headers = [
        r"MSH|^~\&|a|b|c|d|e|f||1|i|j|k|l|m",
        r"MSH|^~\&|a||||||X|1",
        r"MSH|^~\&||b|||||X|1",
        r"MSH|^~\&|||c||||X|1",
        r"MSH|^~\&||||d|||X|1",
        r"MSH|^~\&|||||2023||X|1|P|2.3",
        r"MSH|^~\&||||||f|X|1||",
        r"MSH|^~\&|a^b&c~d|~|^&|\S\||||1|P^A~T",
        r#"MSH|^~\&|""|""^|~""|" "||||1|"""#,
        r"MSH|^~\&| | a|é|||||1| ",
        r"MSH|^~\&|||||||X|1|~",
        r"MSH|^~\&|||||||X|1|^",
        r"MSH|^~\&|||||||X|1|x|2.4^AUS",
        r"MSH|^~\&|LIS^3|Bay&x|GPS|Hill St|||^R01|A~B|D^&~|2.4",
    ];
    headers.iter().map(|header| acknowledged(&message(&[header]), TIME, ID)).collect()
}

/// A header cut at every byte, with no CR behind it and with one; and no message at all.
fn headers_cut() -> Vec<Bytes> {
    let header = br"MSH|^~\&|A|B|C|D|2023||X^Y|12|P|2.4";
    let mut lines = Vec::new();
    for length in 0..=header.len() {
        lines.push(acknowledged(&header[..length], TIME, ID));
        lines.push(acknowledged(&[&header[..length], b"\r"].concat(), TIME, ID));
    }
    lines
}

/// Faults 1 to 4 in the header itself, with the first CR at every kind of place.
fn headers_with_a_fault() -> Vec<Bytes> {
    let mut messages: Vec<Bytes> = [(0, b'N'), (1, b's'), (2, b' '), (8, b'A'), (8, b'^')]
        .map(|(place, byte)| changed(SHORTEST, place, byte))
        .to_vec();
    for place in 3..8 {
        for byte in [b'A', b'.', b'"', b'\r', 0x80, SHORTEST[3 + (place - 2) % 5]] {
            messages.push(changed(SHORTEST, place, byte));
        }
    }
    for byte in *b"\n\t\0\x1F\x7F\x80\x9F" {
        messages.push([br"MSH|^~\&|", &[byte][..], b"|||||||1\r"].concat());
        messages.push([br"MSH|^~\&||||||||1|", &[byte][..], b"\r"].concat());
    }
    for text in [
        "\r", "\n", "\rMSH|^~\\&||||||||1\r", " MSH|^~\\&||||||||1\r", "\u{B}MSH|^~\\&||||||||1\r",
        "MSH|^~\\&\r||||||||1\r", "MSH|^~\\&|\r|||||||1\r", "MSH|^~\\&||||||||\r1\r",
        "MSH|^~\\&||||||||1\n", "FHS|^~\\&||||||||1\r", "MSA|AA|1\r", "MSHA^~\\&AAAAAAAA1\r",
    ] {
        messages.push(latin(text));
    }
    messages.iter().map(|message| acknowledged(message, TIME, ID)).collect()
}

/// The letter for any fault behind a sound header or in a field of it, and AA for none.
fn faults_behind_the_header() -> Vec<Bytes> {
    let oru = header_of_oru(&[]);
    let mut messages = Vec::new();
    for behind in [
        "OBR\r",
        "\0",
        "OBR|\u{80}\r",
        "OBR\r\n",
        "OBR",
        "obr\r",
        "\r",
        "MSH|\r",
        "OBRX\r",
        "",
        "EVN\r",
        "PID\r",
        "ZZZ\rOBR\r",
        "OBR|x\r",
        "OBR|1~1\r",
        "OBR\rOBX\r",
        "OBR\rOBX|||\"\"\r",
        "OBR\rOBX||XX|1||||||||F\r",
        "OBR\rOBX|||1||5||||||F\r",
        "OBR\rOBX||NM|1||1234567890123456789||||||F\r",
        "OBR\rOBX||NM|1||5||||||F\r",
        "OBR\rOBX||NM|1||5~x||||||F\r",
        "PID\rOBR\r",
        "OBR\rDSC\rOBR\r",
    ] {
        messages.push([latin(&format!("{oru}\r")), latin(behind)].concat());
    }
    for (field, content) in [
        (7, ""),
        (7, "x"),
        (7, r#""""#),
        (9, "ORU^R02"),
        (9, "ORU"),
        (10, "A~B"),
        (10, "A^B"),
        (10, "12345678901234567890"),
        (11, "X"),
        (11, "T^"),
        (11, "P~"),
        (12, "2.3"),
        (12, ""),
        (12, "2.4^AUS"),
    ] {
        messages.push(message(&[&header_of_oru(&[(field, content)]), "OBR"]));
    }
    let a40 = segment("MSH", &[(9, "ADT^A40")]);
    messages.push(message(&[&a40, "EVN", "PID|||1||A", "MRG"]));
    messages.push(message(&[&a40, "EVN", "PID|||1", "MRG"]));
    messages.push(message(&[&a40, "EVN", "PID|||1||A"]));
    // What would be accepted is not acknowledged where it is an ACK.
    messages.push(message_with("MSA", &[]));
    messages.iter().map(|message| acknowledged(message, TIME, ID)).collect()
}

/// AR for MSH-11 or MSH-12 outside its list and for no other fault there, nor for a word outside
/// another list.
fn letters() -> Vec<Bytes> {
    let mut messages = Vec::new();
    for (field, content) in [
        (11, "p"),
        (11, "P "),
        (11, "P&"),
        (11, "X^P"),
        (11, "^P"),
        (11, r#""""#),
        (11, "X~P"),
        (12, "2.5"),
        (12, "2.4.1"),
        (12, " 2.4"),
        (12, "2.5^2.4"),
        (12, "^2.4"),
        (12, r#""""#),
        (12, "2.5~2.4"),
    ] {
        messages.push(message(&[&header_of_oru(&[(field, content)]), "OBR"]));
    }
    messages.push(message_with("PID", &[(8, "X")]));
    messages.push(message_with("OBX", &[(11, "2.4")]));
    messages.iter().map(|message| acknowledged(message, TIME, ID)).collect()
}

/// "Where several faults stand, the first in the judges' order decides the letter" (W2).
fn first_of_several_faults() -> Vec<Bytes> {
    let mut lines = Vec::new();
    for (changes, behind) in [
        // A reading fault or one of the structure comes before each that is answered AR.
        (&[(9, "ORU^R02")][..], "OBR\r\n"),
        (&[(9, "ORU^R02")], "OBR"),
        (&[(9, "ORU^R02")], "MSH\r"),
        (&[(12, "2.5")], "EVN\r"),
        (&[(11, "X")], ""),
        // An unsupported type comes before any fault of a field.
        (&[(9, "ORU^R02"), (7, "x"), (11, "P~")], "EVN\r"),
        // Then the rows in their order.
        (&[(7, "x"), (11, "X")], "OBR\r"),
        (&[(10, "A~B"), (12, "2.5")], "OBR\r"),
        (&[(11, "X"), (12, "")], "OBR\r"),
        (&[(11, ""), (12, "2.5")], "OBR\r"),
        (&[(11, "P~X"), (12, "2.5")], "OBR\r"),
        (&[(11, "X")], "OBR|x\r"),
        (&[(12, "2.5")], "OBR|x\r"),
    ] {
        let message = [message(&[&header_of_oru(changes)]), latin(behind)].concat();
        lines.push(acknowledged(&message, TIME, ID));
    }
    lines
}

/// The sender's delimiters, in the header and in the ID.
fn other_delimiters() -> Vec<Bytes> {
    let mut lines = Vec::new();
    for header in [
        "MSH#$%*@#a$b@c%d#|#^#~##2023##ORU$R01%x#1^2~3#P#2.3",
        "MSH#$%*@########|^~\\&#",
        "MSH#$%*@#########x",
        "MSH#$%*@########@%$",
        "MSH#$%*@#######ACK^R01#1",
        "MSH#$%*@#######ACK$R01#1",
        "MSH#$%*@#######x^y#1",
        "MSH#$%*@#######x$y@z#1",
        r"MSH\&~^|\\\\\\\x&y\1",
        r"MSH|~^\&|a^b||||||x~y^z|1",
    ] {
        lines.push(acknowledged(&message(&[header]), TIME, br"#$%*@|^~\&"));
    }
    let accepted = message(&["MSH!,:;/!a!b!c!d!2024!!ORU,R01:x!1!P,x!2.4", "OBR!1"]);
    lines.push(acknowledged(&accepted, TIME, b"!,:;/"));
    lines
}

/// A content is split at the sender's delimiters alone: that decides what is outside a list, and
/// what is repeated. The last is asked with a byte less than enough too.
fn letters_with_other_delimiters() -> Vec<Bytes> {
    let mut lines = Vec::new();
    for header in [
        "MSH#$%*@#####2024##ORU^R01#1#P#2.4",
        "MSH#$%*@#####2024##ORU$R01#1#P~X#2.4",
        "MSH#$%*@#####2024##ORU$R01#1#P%X#2.5",
        r"MSH|~^\&|||||2024||ORU~R01|1|P~X|2.4",
        "MSH#$%*@#####2024##ORU$R01#1#P#2.5$2.4",
    ] {
        lines.push(acknowledged(&message(&[header, "OBR"]), TIME, ID));
    }
    let rejected = message(&["MSH#$%*@#####2024##ORU$R01#1#P#2.5$2.4", "OBR"]);
    lines.push(ack_question(&rejected, TIME, ID, enough_for(&rejected, TIME, ID) - 1));
    lines
}

/// Each number and each code, with delimiters of two kinds, each with as much room as is enough and
/// with one byte less.
fn error_of_each_number() -> Vec<Bytes> {
    let mut lines = Vec::new();
    for message in error_places::of_each_number() {
        for delimiters in DELIMITERS {
            let message = delimited(&message, delimiters);
            let enough = enough_for(&message, TIME, ID);
            lines.extend([enough, enough - 1].map(|room| ack_question(&message, TIME, ID, room)));
        }
    }
    lines
}

/// "Sequence counts segments of that name from 1 up to the faulty one" (W4).
fn segments_counted() -> Vec<Bytes> {
    let messages = error_places::counted();
    messages.iter().map(|message| acknowledged(message, TIME, ID)).collect()
}

/// Sequences of one digit, of two and of three. Among them a word outside its list in segments 11 and
/// 12, which are no fields; and a room of one byte less than enough.
fn one_of_many() -> Vec<Bytes> {
    let mut messages = [10, 11, 12].map(|count| error_places::result_with(count, 2, "XX")).to_vec();
    messages.extend([2, 9, 10, 11].map(error_places::last_of).concat());
    messages.extend([99, 100, 130].map(|count| error_places::last_of(count)[0].clone()));
    let [orders, results] = error_places::last_of(120);
    messages.push(delimited(&results, DELIMITERS[1]));
    let mut lines: Vec<Bytes> =
        messages.iter().map(|message| acknowledged(message, TIME, ID)).collect();
    lines.push(ack_question(&orders, TIME, ID, enough_for(&orders, TIME, ID) - 1));
    lines
}

/// Messages as they are sent, and cut before their last segment.
fn lifelike_messages() -> Vec<Bytes> {
    let mut lines = Vec::new();
    for whole in lifelike::messages() {
        lines.push(acknowledged(&whole, b"20240301120000+1000", b"gw-1"));
    }
    let report = lifelike::chest_report();
    for length in [report.len() - 1, report.len() - 2, 100] {
        lines.push(acknowledged(&report[..length], b"20240301120000+1000", b"gw-1"));
    }
    lines
}

/// Lines that come near a question of this verb.
fn no_questions() -> Vec<Bytes> {
    let shortest = "4d53487c5e7e5c267c7c7c7c7c7c7c7c310d";
    let rests = [
        "",
        " ",
        " -",
        " - -",
        " - - -",
        " - - - 0",
        " - - - 1",
        " - 32303234 - 1",
        " - 32303234 4b 1",
        " - 32303234 4b 1 ",
        " - 32303234 4b 1 1",
        " -  32303234 4b 1",
        "  - 32303234 4b 1",
        " - 32303234 4b  1",
        " - 32303234 4b",
        " - 32303234 4b ",
        " - 32303234 4b -",
        " - 32303234 4b -1",
        " - 32303234 4b +1",
        " - 32303234 4b 01",
        " - 32303234 4b a",
        " - 32303234 4b 1.0",
        " - 32303234 4b 0x1",
        " - 32303234 4b 65537",
        " - 32303234 4b 4294967297",
        " - 32303234 4b 18446744073709551616",
        " - 32303234 4b 18446744073709551617",
        " - 32303234 4 1",
        " - 32303234 4g 1",
        " - 3230323 4b 1",
        " - 2024 K 1",
        " -- 32303234 4b 1",
        " 4 32303234 4b 1",
        " 4g 32303234 4b 1",
        " 32303234 4b 1",
        " - 32303234 4b 1\r",
        " - 32303234 4b 1\0",
        " - 32303234 4B 1",
        " - - 4b 65537",
        " 4D 32303234 4b 1",
    ];
    let mut lines: Vec<String> = rests.map(|rest| format!("ack{rest}")).to_vec();
    lines.push(format!("ack {} 32303234 4B {ENOUGH}", shortest.to_uppercase()));
    lines.push(format!("ack {shortest} 32303234 {ENOUGH}"));
    lines.push(format!("ack {shortest} 32303234 4b 4b {ENOUGH}"));
    lines.push(format!("ack {shortest}0 32303234 4b {ENOUGH}"));
    for verb in ["ACK", "Ack", "acks", "ac", " ack", "nack", "ack\t"] {
        lines.push(format!("{verb} - 32303234 4b 1"));
    }
    lines.into_iter().map(String::into_bytes).collect()
}
