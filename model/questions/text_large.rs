//! The large set of the verbs `escape`, `unescape` and `format`: texts as long as a message may be,
//! with just enough room, with one byte less, and with a fault at their end. For texts there is no
//! limit there.

use super::{format_length, text_question, Bytes, USUAL_DELIMITERS};
use crate::reading::LONGEST_MESSAGE;
use crate::text;

pub fn large() -> Vec<Bytes> {
    [escaped(), unescaped(), formatted()].concat()
}

fn question(verb: &str, text: &[u8], room: usize) -> Bytes {
    text_question(verb, text, &USUAL_DELIMITERS, room)
}

/// So many bytes of this text over and over.
fn long(text: &[u8]) -> Bytes {
    text.iter().copied().cycle().take(LONGEST_MESSAGE).collect()
}

/// Mostly plain; and five bytes for each of the text, which is the most there can be.
fn escaped() -> Vec<Bytes> {
    let mixed = long(br"Dr Osei & Dr Brandt | 10^9/l, and so on. ");
    let enough = text::escaped(&mixed, USUAL_DELIMITERS).len();
    let zeros = long(&[0]);
    vec![
        question("escape", &mixed, enough),
        question("escape", &zeros, 5 * zeros.len()),
        question("escape", &zeros, 5 * zeros.len() - 1),
    ]
}

/// Short sequences and a long one, and faults: of the last byte, and of the first where nothing
/// ends what begins there.
fn unescaped() -> Vec<Bytes> {
    let letters = br"\F\".repeat(LONGEST_MESSAGE / 3);
    let digits = [br"\X", &long(b"4a")[..], br"\"].concat();
    let behind_plain = |fault: &[u8]| [&long(b"plain ")[..], fault].concat();
    vec![
        question("unescape", &letters, letters.len() / 3),
        question("unescape", &digits, LONGEST_MESSAGE / 2),
        question("unescape", &behind_plain(b"|"), 0),
        question("unescape", &[br"\", &long(b"X4a")[..]].concat(), 0),
    ]
}

/// Lines that are ended and lines that are wrapped; and faults behind them. With no room, 14 has to
/// come behind each.
fn formatted() -> Vec<Bytes> {
    let ended = br"Film reviewed:\.in+1\\.br\mild neutrophilia,\.sp\\.in-1\ no blasts seen.\.br\";
    let ended = ended.repeat(LONGEST_MESSAGE / ended.len());
    let wrapped = long(b"Film reviewed: mild neutrophilia, no blasts seen. ");
    let enough = |text| format_length(text, USUAL_DELIMITERS);
    let mut lines = vec![
        question("format", &ended, enough(&ended) - 1),
        question("format", &wrapped, enough(&wrapped)),
    ];
    for (fault, length) in [
        (&b"\n"[..], 100_000),
        (b"|", 100_000),
        (br"\.x\", LONGEST_MESSAGE),
        (br"\.br", 100_000),
        (br"\.sk201\", LONGEST_MESSAGE),
    ] {
        lines.push(question("format", &[&wrapped[..length], fault].concat(), 0));
    }
    lines
}
