//! The wide set of the verb `verdict`: every judged field with every telling content, every type of
//! OBX-2 with all of them in OBX-5, every two faults, every word as short as a list has them, and
//! messages as they are sent with damage at every place.

use super::error_places::RESULT;
use super::filled::{header_of_oru, message_with, oru_with, segment, JUDGED};
use super::verdict_stored::{segments_moved, FAULTS};
use super::{changed, lifelike, message, stretched, verdict_question, Bytes, LONG_IDS};
use crate::ask::LONGEST_HELD;
use crate::reading::{allowed, MOST_SEGMENTS};

/// Contents of a field that are right somewhere and wrong elsewhere.
pub const TELLING: [&str; 78] = [
    "", "^", "&", "~", "^&~", "~~", r#""""#, r#"""^"#, r#"^"""#, r#"""&"#, r#"""~"#, r#"~"""#,
    r#"""~"""#, r#"""#, r#"""""#, " ", "0", "1", "5", "-5", "+5.0", "5.", "9999", "10000",
    "123456789012345678", "1234567890123456789", "0.12345678901234567890", "2024", "202402",
    "20240229", "20230229", "2024022909", "202402290930", "20240229093001.1234+1030", "2024+1500",
    "0000", "0930", "093001.5-0030", "24", "2.4", "2.3", "2.4^AUS&&ISO", "P", "D", "T", "F", "M",
    "X", "AA", "AE", "CA", "NM", "ST", "TS", "f", "nm", "aa", "P^", "^P", "P&", "&P", "P~", "~P",
    "P~D", "F^M", "1^2", "2024^x", "x^2024", "^2024", "&^2024", r#"""^2024"#, "2024~x", "é",
    r"\T\", "A2345678901234567890", "A23456789012345678901", LONG_IDS[0], LONG_IDS[1],
];

/// Ways to put an accepted content, `x`, into a field that should not hold it so.
pub const AROUND_ACCEPTED: [&str; 18] = [
    "x", "x~", "~x", "x~x", "x~~x", "^x", "x^", "&x", "x&", " x", "x ", "xx", "x^x", "x&x",
    r#"""~x"#, r#"x~"""#, r#"""^x"#, r#""x""#,
];

/// What OBX-2 may hold, right and wrong.
const VALUE_TYPES: [&str; 22] = [
    "CE", "DT", "ED", "FT", "NM", "RP", "SN", "ST", "TM", "TS", "TX", "", "^", r#""""#, "XX", "nm",
    "NM~", "~NM", "NM^", "NM ", "~", r#"""~NM"#,
];

pub fn wide() -> Vec<Bytes> {
    let messages =
        [telling_contents(), observations(), short_words(), control_ids(), two_faults(), damaged()];
    messages.concat().iter().map(|message| verdict_question(message)).collect()
}

/// What is as large as a limit.
pub fn limits() -> Vec<Bytes> {
    long_messages().iter().map(|message| verdict_question(message)).collect()
}

fn telling_contents() -> Vec<Bytes> {
    let mut messages = Vec::new();
    for (name, field, accepted) in JUDGED {
        for content in TELLING {
            messages.push(message_with(name, &[(field, content)]));
        }
        for pattern in AROUND_ACCEPTED {
            messages.push(message_with(name, &[(field, &pattern.replace('x', accepted))]));
        }
    }
    messages
}

fn observations() -> Vec<Bytes> {
    let mut messages = Vec::new();
    for value_type in VALUE_TYPES {
        for content in TELLING {
            messages.push(message_with("OBX", &[(2, value_type), (5, content)]));
            let later = format!("~{content}");
            messages.push(message_with("OBX", &[(2, value_type), (5, &later)]));
        }
    }
    messages
}

/// Every two capitals where a list has words of two, and every byte where it has words of one.
fn short_words() -> Vec<Bytes> {
    let mut messages = Vec::new();
    for first in 'A'..='Z' {
        for second in 'A'..='Z' {
            let word = format!("{first}{second}");
            messages.push(message_with("OBX", &[(2, &word)]));
            messages.push(message_with("MSA", &[(1, &word)]));
        }
    }
    for byte in (0x20..=0xFF).filter(|&byte| allowed(byte)) {
        let word = char::from(byte).to_string();
        for (name, field) in [("MSH", 11), ("PID", 8), ("OBX", 11), ("OBR", 1), ("OBX", 1)] {
            messages.push(message_with(name, &[(field, &word)]));
        }
    }
    messages
}

/// Every length of MSH-10 about the longest, of letters, of separators, and of repetitions.
fn control_ids() -> Vec<Bytes> {
    let mut messages = Vec::new();
    for length in (0..=24).chain(196..=202) {
        for filling in ["A", "^", "&", "~", "A^", "A~", "\""] {
            let id: String = filling.chars().cycle().take(length).collect();
            messages.push(message_with("MSH", &[(10, &id)]));
        }
    }
    messages
}

/// Every two faults of an ORU with two patients, in one segment or in two.
fn two_faults() -> Vec<Bytes> {
    let mut faults = Vec::new();
    for (name, field, contents) in FAULTS {
        let places = match name {
            "PID" => &["PID", "second PID"][..],
            "OBR" => &["OBR", "second OBR"],
            "OBX" => &["OBX", "second OBX"],
            "MSH" => &["MSH"],
            // MSA is no segment of an ORU.
            _ => &[],
        };
        for place in places {
            faults.extend(contents.map(|content| (*place, field, content)));
        }
    }
    let mut messages = Vec::new();
    for later in 0..faults.len() {
        for earlier in 0..=later {
            messages.push(oru_with(&[faults[earlier], faults[later]]));
        }
    }
    messages
}

/// As many segments as may be, with a fault in the last or without, and one more; and as many bytes
/// and as many repetitions as the program holds.
fn long_messages() -> Vec<Bytes> {
    let header = header_of_oru(&[]);
    let mut messages = Vec::new();
    for (field, content) in [(11, "F"), (11, ""), (1, "x"), (5, "x"), (14, "x")] {
        let last = segment("OBX", &[(field, content)]);
        let mut segments = vec![&header[..], "OBR"];
        // Every third is a result: so many of them alone would be too long for the program.
        segments.extend([RESULT, "NTE", "NTE"].iter().cycle().take(MOST_SEGMENTS - 3));
        segments.push(&last);
        messages.push(message(&segments));
        segments.push(&last);
        messages.push(message(&segments));
    }
    for repetition in ["~", "5~", "^~"] {
        for last in ["5", "x", r#""""#] {
            let short = message_with("OBX", &[(5, last)]);
            let count = (LONGEST_HELD - short.len()) / repetition.len();
            let content = repetition.repeat(count) + last;
            messages.push(message_with("OBX", &[(5, &content)]));
            messages.push(message_with("OBX", &[(2, ""), (5, &content)]));
        }
    }
    messages.push(stretched(message_with("OBX", &[(15, "")]), LONGEST_HELD));
    messages
}

/// Each message as it is sent, with each byte and each field changed or dropped, and each segment
/// dropped, doubled or swapped.
fn damaged() -> Vec<Bytes> {
    let mut messages = Vec::new();
    for whole in lifelike::messages() {
        messages.extend(segments_moved(&whole));
        messages.extend(fields_changed(&whole));
        messages.extend(bytes_changed(&whole));
    }
    messages
}

/// Each field emptied, null, in two repetitions, or dropped, so that the next one takes its place.
fn fields_changed(message: &[u8]) -> Vec<Bytes> {
    let separators = message.iter().enumerate().filter(|(_, &byte)| byte == b'|');
    let mut messages = Vec::new();
    for (separator, _) in separators.skip(1) {
        let (before, behind) = message.split_at(separator + 1);
        let length = behind.iter().take_while(|byte| !b"|\r".contains(byte)).count();
        let (field, behind) = behind.split_at(length);
        for content in [b"", &b"\"\""[..], b"~", b"x"] {
            messages.push([before, content, behind].concat());
        }
        messages.push([before, field, b"~", field, behind].concat());
        messages.push([&before[..separator], behind].concat());
    }
    messages
}

/// Each byte dropped, and changed to another one.
fn bytes_changed(message: &[u8]) -> Vec<Bytes> {
    let others = b"|~^\"A0 \r&1x\n".iter().cycle();
    let mut messages = Vec::new();
    for (place, &other) in (0..message.len()).zip(others) {
        messages.push([&message[..place], &message[place + 1..]].concat());
        messages.push(changed(message, place, other));
    }
    messages
}
