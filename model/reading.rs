//! Reading a message: the checks 1 to 8 of document 01, each under the paper's own words, in the
//! paper's order. A refusal gives its number and its place, a byte offset for 3 to 8, else 0.

/// "A message has 1 to 1,048,576 bytes and 1 to 4,096 segments." These figures and the one below
/// are W6's of document 02: wherever the model quotes document 01, they stand in the place of its
/// own.
pub const LONGEST_MESSAGE: usize = 1_048_576;
pub const MOST_SEGMENTS: usize = 4_096;

/// "Control IDs to 199 bytes, ours too." (W6)
pub const LONGEST_ID: usize = 199;

/// "Each segment, the last included, ends with CR."
pub const CR: u8 = 0x0D;

/// "Byte 3 is the field separator; bytes 4 to 7 are component, repetition, escape and subcomponent
/// separator. Byte 8 is the field separator or CR."
pub const FIELD_SEPARATOR: usize = 3;
pub const COMPONENT_SEPARATOR: usize = 4;
pub const REPETITION_SEPARATOR: usize = 5;
pub const SUBCOMPONENT_SEPARATOR: usize = 7;
const LAST_DELIMITER: usize = 7;
const BEHIND_DELIMITERS: usize = 8;

/// Why a message, or what is asked of it, is refused: the paper's number, and where.
pub struct Refusal {
    pub number: u32,
    pub place: usize,
}

pub fn refuse<Answer>(number: u32, place: usize) -> Result<Answer, Refusal> {
    Err(Refusal { number, place })
}

/// "Reading checks 1 to 5 in order, then the segments."
pub fn read(message: &[u8]) -> Result<(), Refusal> {
    check_length(message)?;
    check_header(message)?;
    check_delimiters(message)?;
    check_bytes(message)?;
    check_end(message)?;
    check_segments(message)
}

/// 1: "length 0 or over 1,048,576".
fn check_length(message: &[u8]) -> Result<(), Refusal> {
    if message.is_empty() || message.len() > LONGEST_MESSAGE {
        return refuse(1, 0);
    }
    Ok(())
}

/// 2: "under 9 bytes, not `MSH`, or byte 8 wrong". Byte 8 is held to byte 3 as it stands, before
/// byte 3 itself is judged (ruling 2).
fn check_header(message: &[u8]) -> Result<(), Refusal> {
    if message.len() < 9 || !message.starts_with(b"MSH") {
        return refuse(2, 0);
    }
    let behind = message[BEHIND_DELIMITERS];
    if behind != message[FIELD_SEPARATOR] && behind != CR {
        return refuse(2, 0);
    }
    Ok(())
}

/// 3: "first delimiter byte not permitted or equal to an earlier one".
fn check_delimiters(message: &[u8]) -> Result<(), Refusal> {
    match first_bad_delimiter(&message[FIELD_SEPARATOR..=LAST_DELIMITER]) {
        Some(place) => refuse(3, FIELD_SEPARATOR + place),
        None => Ok(()),
    }
}

/// The number of the delimiter that 3 is given for: among the five alone, they "count 0 to 4".
pub fn first_bad_delimiter(delimiters: &[u8]) -> Option<usize> {
    (0..delimiters.len()).find(|&place| {
        let earlier = &delimiters[..place];
        !may_delimit(delimiters[place]) || earlier.contains(&delimiters[place])
    })
}

/// "Each is ASCII punctuation (0x21-2F, 3A-40, 5B-60, 7B-7E) but none of `"` `+` `-` `.`."
pub fn may_delimit(byte: u8) -> bool {
    let punctuation = matches!(byte, 0x21..=0x2F | 0x3A..=0x40 | 0x5B..=0x60 | 0x7B..=0x7E);
    punctuation && !matches!(byte, b'"' | b'+' | b'-' | b'.')
}

/// 4: "first byte not allowed", of the whole message, before 5 and before any name (ruling 3).
fn check_bytes(message: &[u8]) -> Result<(), Refusal> {
    match message.iter().position(|&byte| !allowed(byte)) {
        Some(place) => refuse(4, place),
        None => Ok(()),
    }
}

/// "Allowed bytes: CR, 0x20 to 0x7E, 0xA0 to 0xFF."
pub fn allowed(byte: u8) -> bool {
    matches!(byte, CR | 0x20..=0x7E | 0xA0..=0xFF)
}

/// 5: "last byte not CR", at that last byte (ruling 1).
fn check_end(message: &[u8]) -> Result<(), Refusal> {
    let last = message.len() - 1;
    if message[last] != CR {
        return refuse(5, last);
    }
    Ok(())
}

/// 6, 7, 8: "leftmost segment: 8 if it is the 4,097th, 6 bad name, 7 a second MSH", at the
/// segment's first byte. The 4,097th is 8 whatever it holds (ruling 4).
fn check_segments(message: &[u8]) -> Result<(), Refusal> {
    let mut place = 0;
    for (before, segment) in message.split_inclusive(|&byte| byte == CR).enumerate() {
        if before == MOST_SEGMENTS {
            return refuse(8, place);
        }
        if !well_named(segment, message[FIELD_SEPARATOR]) {
            return refuse(6, place);
        }
        if before > 0 && segment.starts_with(b"MSH") {
            return refuse(7, place);
        }
        place += segment.len();
    }
    Ok(())
}

/// "A segment's name is three bytes, a capital and then two capitals or digits, followed by the
/// field separator or CR." All are ASCII (ruling 5). The segment has the CR that ends it.
fn well_named(segment: &[u8], field_separator: u8) -> bool {
    segment.len() > 3
        && segment[0].is_ascii_uppercase()
        && segment[1..3].iter().all(|byte| byte.is_ascii_uppercase() || byte.is_ascii_digit())
        && (segment[3] == field_separator || segment[3] == CR)
}
