//! The stored questions of the verb `read`: sound messages, telling bytes at every kind of place,
//! damaged messages, and each pair of faults that can stand together. The messages are as short as
//! their point allows, since all verbs share the room for vectors; what is as long as a limit, and
//! every byte value at every place, stand in the wide set and in the large one.

use super::read_wide::at_every_place;
use super::{changed, latin, message, read_fresh, read_question, sound, Bytes};
use crate::chance::Chance;
use crate::reading::{CR, MOST_SEGMENTS};

pub fn stored() -> Vec<Bytes> {
    let messages = [
        sound::of_each_structure(),
        sound::of_other_kinds(),
        short_messages(),
        at_every_place(TELLING),
        equal_delimiters(),
        segment_names(),
        line_ends(),
        damaged(),
        two_faults(),
        seeded(),
    ];
    messages.concat().iter().map(|message| read_question(message)).collect()
}

/// A header cut at each of its bytes, so 0, 1, 8 and 9 bytes, and other messages as short.
fn short_messages() -> Vec<Bytes> {
    let header = message(&[r"MSH|^~\&|"]);
    let mut messages: Vec<Bytes> =
        (0..=header.len()).map(|length| header[..length].to_vec()).collect();
    for text in
        ["\r", "\n", "A", "MSH", "MSH\r", "MSH|\r", "MSH|||||\r", "MSH|^~\\\r", "MSH|^~\\&A"]
    {
        messages.push(latin(text));
    }
    for length in [1, 8, 9, 10] {
        messages.push(vec![CR; length]);
        messages.push(vec![0; length]);
    }
    messages
}

/// Bytes at the edges of what may stand somewhere: of control bytes, of digits, of capitals and small
/// letters, of delimiters, of ASCII and of Latin-1. The others stand in the wide set.
const TELLING: &[u8] =
    b"\0\t\n\x0B\r\x1C\x1F !\"#&'+-./09:;@AMZ[\\]^_`az{|}~\x7F\x80\x9F\xA0\xC0\xFF";

/// Each two of the five equal, alone and with a byte that is not permitted at each of the others.
fn equal_delimiters() -> Vec<Bytes> {
    let header = message(&[r"MSH|^~\&"]);
    let mut messages = Vec::new();
    for later in 4..8 {
        for earlier in 3..later {
            let equal = changed(&header, later, header[earlier]);
            let others = (3..8).filter(|&place| place != earlier && place != later);
            messages.extend(others.map(|place| changed(&equal, place, b'.')));
            messages.push(equal);
        }
    }
    messages.push(latin("MSH||||||\r"));
    messages
}

/// Good and bad names, as the second segment and as the last of three.
fn segment_names() -> Vec<Bytes> {
    let names = [
        "", "|", "|PID", "P", "P|", "PI", "PI|", "PID", "PID|", "PIDX", "PIDX|", "PID^", "PID 1",
        " PID|", "pid|", "Pid|", "PId|", "1ID|", "P1D|", "PI1|", "P00|", "ÀID|", "PÀD|", "PIÀ|",
        "P²D|", "PI_|", "PI^|", "P|D|", "Z", "ZZ|", "ZZZ", "ZZZZ", "Z00|", "MSH", "MSH|", "MSHx",
        "MSHx|", "MSH^", r"MSH|^~\&|", r"MSH#$%*@#", "MSh|", "MSHH", "MS", "MSA|", "MSI|", "NSH|",
    ];
    let mut messages = Vec::new();
    for name in names {
        messages.push(message(&[r"MSH|^~\&", name]));
        messages.push(message(&[r"MSH|^~\&|A", "PID|1", name]));
    }
    // The separator is the message's own: where it is `#`, a `|` behind a name makes a bad name.
    for name in ["PID#", "PID|", "PID$", "MSH#", "MSH|"] {
        messages.push(message(&["MSH#$%*@", name]));
    }
    messages
}

/// CR missing, doubled, or written as LF or CR LF; and the bytes that a link puts around a message.
fn line_ends() -> Vec<Bytes> {
    let texts = [
        "MSH|^~\\&|\nPID|1\n",
        "MSH|^~\\&|\r\nPID|1\r\n",
        "MSH|^~\\&|\rPID|1\r\n",
        "MSH|^~\\&|\rPID|1\n",
        "MSH|^~\\&\n",
        "MSH|^~\\&\r\n",
        "MSH|^~\\&|\r\r",
        "MSH|^~\\&\r\r\r",
        "MSH|^~\\&|\r\rPID|1\r",
        "MSH|^~\\&|\rPID|1\r\r",
        "\rMSH|^~\\&|\r",
        "\nMSH|^~\\&|\r",
        " MSH|^~\\&|\r",
        "MSH|^~\\&|\rPID|1",
        "MSH|^~\\&|\rPID",
        "MSH|^~\\&|\r ",
        "MSH|^~\\&|PID|1\r",
        "MSH|^~\\&|\tA\r",
        "\u{B}MSH|^~\\&|\r\u{1C}\r",
        "MSH|^~\\&|\r\u{1C}\r",
        "\u{EF}\u{BB}\u{BF}MSH|^~\\&|\r",
        "MSH|^~\\&|\rPID|1\r\0",
    ];
    texts.iter().map(|text| latin(text)).collect()
}

/// A small ORU cut at every place, and with one byte removed, inserted, changed or swapped with the
/// one before it.
fn damaged() -> Vec<Bytes> {
    let whole = message(&[r"MSH|^~\&|L||||||ORU^R01", "OBR|1", "OBX|1"]);
    let mut messages: Vec<Bytes> =
        (0..=whole.len()).map(|length| whole[..length].to_vec()).collect();
    for place in 0..whole.len() {
        messages.push([&whole[..place], &whole[place + 1..]].concat());
        for byte in *b"\r\n|A\x80" {
            messages.push([&whole[..place], &[byte], &whole[place..]].concat());
            messages.push(changed(&whole, place, byte));
        }
        if place > 0 {
            let mut swapped = whole.clone();
            swapped.swap(place - 1, place);
            messages.push(swapped);
        }
    }
    messages
}

/// A sound message by its segments, each with its CR: what the faults below are put into.
pub fn plain() -> Vec<Bytes> {
    [r"MSH|^~\&|LAB", "PID|1", "PV1|1", "ORC|1", "OBR|1", "OBX|1"]
        .iter()
        .map(|segment| message(&[segment]))
        .collect()
}

/// Puts a fault into the segments of a message.
pub type Fault = fn(&mut Vec<Bytes>);

/// Faults that can be put into `plain` together, in this order, each beside its number.
pub fn faults() -> Vec<Fault> {
    vec![
        |segments| segments[0][0] = b'N',           // 2: not `MSH`
        |segments| segments[0][8] = b'A',           // 2: byte 8
        |segments| segments[0][4] = b'A',           // 3: not permitted
        |segments| segments[0][7] = segments[0][5], // 3: equal to an earlier one
        |segments| segments[0][10] = 0x0A,          // 4: near the start
        |segments| segments[5][4] = 0x09,           // 4: near the end
        |segments| segments[1] = latin("P-D|1\r"),  // 6: the leftmost
        |segments| segments[2] = latin("MSH|1\r"),  // 7: right of one 6, left of the other
        |segments| segments[3] = latin("orc|1\r"),  // 6
        |segments| segments[4] = latin("MSH\r"),    // 7
        |segments| segments[5].truncate(5),         // 5: the last CR taken off
        |segments| segments[4].extend(b"ZZZ\r".repeat(MOST_SEGMENTS)), // 8
    ]
}

/// Each fault alone, and each two together, but the one that makes a message of too many segments.
fn two_faults() -> Vec<Bytes> {
    let mut faults = faults();
    faults.pop();
    let mut messages = Vec::new();
    for later in 0..faults.len() {
        messages.push(with_faults(&[faults[later]]));
        for earlier in 0..later {
            messages.push(with_faults(&[faults[earlier], faults[later]]));
        }
    }
    messages
}

/// `plain` with these faults, put into it in this order.
pub fn with_faults(faults: &[Fault]) -> Bytes {
    let mut segments = plain();
    for fault in faults {
        fault(&mut segments);
    }
    segments.concat()
}

/// Random messages with random damage, of one seed for ever.
fn seeded() -> Vec<Bytes> {
    let mut chance = Chance::of_seed(24);
    (0..60).map(|_| read_fresh::damaged_message(&mut chance)).collect()
}
