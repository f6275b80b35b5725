//! The wide set of the verbs `escape` and `unescape`: every short text over bytes that tell rules
//! apart, every byte at each of the five delimiters, and the largest buffer.

use super::{changed, text_question, texts, Bytes, TEXTS, USUAL_DELIMITERS};
use crate::ask::{LONGEST_LINE, MOST_ROOM};

/// The delimiters, digits and letters of sequences and their neighbours, and the edges of what is
/// allowed.
const TELLING: &[u8] =
    b"|^~\\&0149ABFGabfgHNSTREXsrtexz.Z\"' /:@`\0\n\x0C\r\x0E\x1F\x7F\x80\x9F\xA0\xE9\xFF";

/// The most telling of them.
const MOST_TELLING: &[u8] = b"|&\\X4fES\"\r\xA0\x9F";

pub fn wide() -> Vec<Bytes> {
    [pairs(), triples(), sequences(), every_delimiter()].concat()
}

/// What is as large as a limit.
pub fn limits() -> Vec<Bytes> {
    largest_buffer()
}

fn by_both_verbs(texts: &[Bytes], room: usize) -> Vec<Bytes> {
    let ask = |text: &Bytes| TEXTS.map(|verb| text_question(verb, text, &USUAL_DELIMITERS, room));
    texts.iter().flat_map(ask).collect()
}

fn pairs() -> Vec<Bytes> {
    by_both_verbs(&texts(TELLING, 2), 12)
}

fn triples() -> Vec<Bytes> {
    by_both_verbs(&texts(MOST_TELLING, 3), 15)
}

/// Every text of up to five bytes that can be the parts of sequences.
fn sequences() -> Vec<Bytes> {
    let texts = (1..=5).flat_map(|length| texts(br"\X4fS", length));
    texts.map(|text| text_question("unescape", &text, &USUAL_DELIMITERS, 5)).collect()
}

/// Every byte at each of the five places, with a text that holds the byte as well.
fn every_delimiter() -> Vec<Bytes> {
    let mut lines = Vec::new();
    for verb in TEXTS {
        for place in 0..5 {
            for byte in 0..=0xFF {
                let delimiters = changed(&USUAL_DELIMITERS, place, byte);
                lines.push(text_question(verb, &[b'a', byte], &delimiters, 6));
            }
        }
    }
    lines
}

/// The most that may be lent, with nothing in it, filled to the last byte, and one byte short. The
/// longest text makes a line of `escape` as long as one may be, and a line of `unescape` too long.
fn largest_buffer() -> Vec<Bytes> {
    let room = MOST_ROOM as usize;
    let delimiters = &USUAL_DELIMITERS;
    let longest = LONGEST_LINE / 2 - 10;
    let mut lines = Vec::new();
    for verb in TEXTS {
        lines.push(text_question(verb, b"", delimiters, room));
        lines.push(text_question(verb, b"a", delimiters, room));
        lines.push(text_question(verb, &vec![b'a'; room], delimiters, room));
        lines.push(text_question(verb, &vec![b'a'; room + 1], delimiters, room));
        lines.push(text_question(verb, &vec![b'a'; longest], delimiters, 0));
    }
    let separators = vec![b'|'; room / 3];
    lines.push(text_question("escape", &[&separators[..], b"a"].concat(), delimiters, room));
    lines.push(text_question("escape", &[&separators[..], b"|"].concat(), delimiters, room));
    lines.push(text_question("escape", &vec![0; longest - 10], delimiters, room));
    lines.push(text_question("unescape", &br"\F\".repeat((longest - 30) / 3), delimiters, room));
    let digits = b"4A".repeat((longest - 30) / 2);
    lines.push(text_question("unescape", &[br"\X", &digits[..], br"\"].concat(), delimiters, room));
    lines
}
