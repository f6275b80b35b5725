//! Text: escaping and unescaping by the chapter 'Text' of document 01. "Unescaping: 3, then 15, then
//! the leftmost of 4, 11, 12, 13, then 14. Escaping: 3, then 14." The place is a byte offset for 4
//! and 11 to 13, the delimiter's number for 3, else 0.

use crate::hex;
use crate::reading::{allowed, first_bad_delimiter, refuse, Refusal, CR};

/// "The five delimiters travel together": field, component, repetition, escape and subcomponent
/// separator.
pub type Delimiters = [u8; 5];
const ESCAPE: usize = 3;

/// The letters of the escapes. "By byte order of the delimiters the letters are F S R E T"
/// (ruling 15).
const LETTERS: [u8; 5] = *b"FSRET";

/// "Null, exactly `""`."
const NULL: &[u8] = b"\"\"";

/// The text as it stands in a message. Any text can be written, where the room is enough.
pub fn escape(text: &[u8], delimiters: Delimiters, room: usize) -> Result<Vec<u8>, Refusal> {
    check_delimiters(delimiters)?;
    check_room(escaped(text, delimiters), room)
}

/// The text that was meant by what stands in a message. "15 looks at the raw text alone"
/// (ruling 16).
pub fn unescape(text: &[u8], delimiters: Delimiters, room: usize) -> Result<Vec<u8>, Refusal> {
    check_delimiters(delimiters)?;
    check_not_null(text)?;
    let meaning = |inside: &[u8]| meaning(inside, delimiters);
    check_room(read_from_the_left(text, delimiters, |byte| byte, meaning)?, room)
}

/// 3: "first delimiter byte not permitted or equal to an earlier one".
pub fn check_delimiters(delimiters: Delimiters) -> Result<(), Refusal> {
    match first_bad_delimiter(&delimiters) {
        Some(place) => refuse(3, place),
        None => Ok(()),
    }
}

/// 15: null, which is no text.
pub fn check_not_null(text: &[u8]) -> Result<(), Refusal> {
    if text == NULL {
        return refuse(15, 0);
    }
    Ok(())
}

/// 14: "result longer than the buffer".
pub fn check_room(result: Vec<u8>, room: usize) -> Result<Vec<u8>, Refusal> {
    if result.len() > room {
        return refuse(14, 0);
    }
    Ok(result)
}

/// House: "text that is exactly two quotes is written `\X2222\`, so that it isn't null".
pub fn escaped(text: &[u8], delimiters: Delimiters) -> Vec<u8> {
    if text == NULL {
        return sequence("X2222", delimiters);
    }
    text.iter().flat_map(|&byte| escaped_byte(byte, delimiters)).collect()
}

/// "Escaping writes the five delimiters by letter, every byte that isn't allowed and CR as its own
/// `\Xhh\` with capital digits, the rest plainly."
fn escaped_byte(byte: u8, delimiters: Delimiters) -> Vec<u8> {
    if let Some(number) = delimiters.iter().position(|&delimiter| delimiter == byte) {
        return sequence(&char::from(LETTERS[number]).to_string(), delimiters);
    }
    if byte == CR || !allowed(byte) {
        return sequence(&format!("X{byte:02X}"), delimiters);
    }
    vec![byte]
}

/// What stands between two escape delimiters, with both of them.
fn sequence(inside: &str, delimiters: Delimiters) -> Vec<u8> {
    let escape = delimiters[ESCAPE];
    [&[escape], inside.as_bytes(), &[escape]].concat()
}

/// What a text is made of, by the meaning of a plain byte and of what stands between two escape
/// delimiters. "It works from the left, and a sequence is judged whole at its opening byte." So the
/// first fault met is "the leftmost of 4, 11, 12, 13".
pub fn read_from_the_left<Item>(
    text: &[u8],
    delimiters: Delimiters,
    plain: impl Fn(u8) -> Item,
    meaning: impl Fn(&[u8]) -> Option<Vec<Item>>,
) -> Result<Vec<Item>, Refusal> {
    let escape = delimiters[ESCAPE];
    let mut result = Vec::new();
    let mut place = 0;
    while place < text.len() {
        if text[place] != escape {
            check_plain_byte(text[place], delimiters, place)?;
            result.push(plain(text[place]));
            place += 1;
            continue;
        }
        // "A sequence runs from an escape byte to the next escape byte, whatever stands between"
        // (ruling 14).
        let behind = &text[place + 1..];
        let Some(length) = behind.iter().position(|&byte| byte == escape) else {
            return refuse(13, place);
        };
        let Some(meant) = meaning(&behind[..length]) else {
            return refuse(12, place);
        };
        result.extend(meant);
        place += length + 2;
    }
    Ok(result)
}

/// 4: "first byte not allowed; in text, CR too". 11: "raw separator other than the escape in text".
fn check_plain_byte(byte: u8, delimiters: Delimiters, place: usize) -> Result<(), Refusal> {
    if byte == CR || !allowed(byte) {
        return refuse(4, place);
    }
    if delimiters.contains(&byte) {
        return refuse(11, place);
    }
    Ok(())
}

/// The bytes that a sequence stands for, by what is between its escape delimiters: a letter, or `X`
/// and "one or more pairs of hex digits of either case". "Others are refused."
pub fn meaning(inside: &[u8], delimiters: Delimiters) -> Option<Vec<u8>> {
    match inside {
        [b'X', digits @ ..] => hex::bytes_of_pairs(digits),
        [letter] => {
            let number = LETTERS.iter().position(|known| known == letter)?;
            Some(vec![delimiters[number]])
        }
        _ => None,
    }
}
