//! Text: escaped and unescaped to the front of a buffer. Both measure first, since a refusal writes
//! nothing, and both copy what stands plainly in runs.

use crate::bytes::{find, is_printable, wrong_delimiter, Delimiters, ESCAPE, NULL};
use crate::{Answer, Refusal};

/// The letters of the delimiters, in their order.
pub const LETTERS: &[u8; 5] = b"FSRET";

const BLOCK: usize = 32;

fn written(length: usize) -> Answer {
    Answer { length, ..Answer::default() }
}

#[inline]
pub fn escape(delimiters: &Delimiters, text: &[u8], buffer: &mut [u8]) -> Answer {
    if let Some(place) = wrong_delimiter(delimiters) {
        return Refusal { number: 3, place }.into();
    }
    let mark = delimiters[ESCAPE];
    let null = text == NULL;
    let length = if null { 7 } else { text.len() + added_length(text, delimiters) };
    let Some(buffer) = buffer.get_mut(..length) else {
        return Refusal { number: 14, place: 0 }.into();
    };
    if null {
        buffer.copy_from_slice(&[mark, b'X', b'2', b'2', b'2', b'2', mark]);
        return written(7);
    }
    let special = Special::of(delimiters);
    let (mut text, mut buffer) = (text, buffer);
    while let Some(run) = special.first_in(text) {
        let byte = text[run];
        let (front, behind) = buffer.split_at_mut(run);
        front.copy_from_slice(&text[..run]);
        let length = put_sequence(byte, delimiters, behind);
        buffer = &mut behind[length..];
        text = &text[run + 1..];
    }
    buffer.copy_from_slice(text);
    written(length)
}

/// How many bytes a text grows by: 2 for a delimiter, 4 for a byte that may not stand plainly. A
/// block's sum fits a byte, so that the compiler adds many at once.
fn added_length(text: &[u8], delimiters: &Delimiters) -> usize {
    let added = |&byte: &u8| {
        let delimits = delimiters.iter().fold(false, |found, &it| found | (it == byte));
        u8::from(delimits) * 2 + u8::from(!is_printable(byte)) * 4
    };
    let mut blocks = text.chunks_exact(BLOCK);
    let mut length = 0;
    for block in &mut blocks {
        length += usize::from(block.iter().map(added).sum::<u8>());
    }
    length + usize::from(blocks.remainder().iter().map(added).sum::<u8>())
}

/// Writes what stands for a byte that is no plain one, and says how many bytes that took.
#[inline(always)]
fn put_sequence(byte: u8, delimiters: &Delimiters, buffer: &mut [u8]) -> usize {
    const DIGITS: &[u8; 16] = b"0123456789ABCDEF";
    let mark = delimiters[ESCAPE];
    if let Some(number) = delimiters.iter().position(|&it| it == byte) {
        buffer[..3].copy_from_slice(&[mark, LETTERS[number], mark]);
        return 3;
    }
    let (high, low) = (DIGITS[usize::from(byte >> 4)], DIGITS[usize::from(byte & 15)]);
    buffer[..5].copy_from_slice(&[mark, b'X', high, low, mark]);
    5
}

#[inline]
pub fn unescape(delimiters: &Delimiters, text: &[u8], buffer: &mut [u8]) -> Answer {
    if let Some(place) = wrong_delimiter(delimiters) {
        return Refusal { number: 3, place }.into();
    }
    if text == NULL {
        return Refusal { number: 15, place: 0 }.into();
    }
    let length = match meant_length(text, delimiters) {
        Ok(length) => length,
        Err(refusal) => return refusal.into(),
    };
    let Some(buffer) = buffer.get_mut(..length) else {
        return Refusal { number: 14, place: 0 }.into();
    };
    put_meaning(text, delimiters, buffer);
    written(length)
}

/// The length of what a text says, or its first fault.
#[inline(always)]
fn meant_length(text: &[u8], delimiters: &Delimiters) -> Result<usize, Refusal> {
    let special = Special::of(delimiters);
    let mark = delimiters[ESCAPE];
    let mut length = 0;
    let mut place = 0;
    while let Some(run) = special.first_in(&text[place..]) {
        length += run;
        place += run;
        if text[place] != mark {
            let number = if is_printable(text[place]) { 11 } else { 4 };
            return Err(Refusal { number, place });
        }
        let behind = &text[place + 1..];
        let Some(end) = find(behind, mark) else {
            return Err(Refusal { number: 13, place });
        };
        length += match &behind[..end] {
            [letter] if LETTERS.contains(letter) => 1,
            [b'X', digits @ ..] if is_pairs(digits) => digits.len() / 2,
            _ => return Err(Refusal { number: 12, place }),
        };
        place += end + 2;
    }
    Ok(length + text.len() - place)
}

pub fn is_pairs(digits: &[u8]) -> bool {
    !digits.is_empty() && digits.len() % 2 == 0 && digits.iter().all(u8::is_ascii_hexdigit)
}

/// Writes what a text without fault says. The buffer is as long as that.
#[inline(always)]
fn put_meaning(text: &[u8], delimiters: &Delimiters, buffer: &mut [u8]) {
    let mark = delimiters[ESCAPE];
    let (mut text, mut buffer) = (text, buffer);
    while let Some(run) = find(text, mark) {
        let (front, behind) = buffer.split_at_mut(run);
        front.copy_from_slice(&text[..run]);
        text = &text[run + 1..];
        let end = find(text, mark).unwrap_or(text.len());
        let inside = &text[..end];
        let length = match LETTERS.iter().position(|letter| inside == [*letter]) {
            Some(number) => {
                behind[0] = delimiters[number];
                1
            }
            None => {
                let pairs = inside[1..].chunks_exact(2);
                let length = pairs.len();
                for (byte, pair) in behind.iter_mut().zip(pairs) {
                    *byte = digit(pair[0]) << 4 | digit(pair[1]);
                }
                length
            }
        };
        buffer = &mut behind[length..];
        text = &text[end + 1..];
    }
    buffer.copy_from_slice(text);
}

/// What a hex digit of either case says.
pub fn digit(byte: u8) -> u8 {
    if byte.is_ascii_digit() {
        byte - b'0'
    } else {
        (byte | 0x20).wrapping_sub(b'a' - 10)
    }
}

/// The bytes that do not stand plainly in a text: as a test for a block, and as a table for a byte.
struct Special<'a> {
    delimiters: &'a Delimiters,
    table: [bool; 256],
}

static NOT_PRINTABLE: [bool; 256] = {
    let mut table = [false; 256];
    let mut byte = 0;
    while byte < 256 {
        table[byte] = !matches!(byte, 0x20..=0x7E | 0xA0..=0xFF);
        byte += 1;
    }
    table
};

impl Special<'_> {
    fn of(delimiters: &Delimiters) -> Special<'_> {
        let mut table = NOT_PRINTABLE;
        for &delimiter in delimiters {
            table[usize::from(delimiter)] = true;
        }
        Special { delimiters, table }
    }

    #[inline(always)]
    fn first_in(&self, text: &[u8]) -> Option<usize> {
        let in_table = |&byte: &u8| self.table[usize::from(byte)];
        let [field, component, repetition, escape, subcomponent] = *self.delimiters;
        let mut blocks = text.chunks_exact(BLOCK);
        let mut start = 0;
        for block in &mut blocks {
            let found = block.iter().fold(false, |found, &byte| {
                let delimits = (byte == field)
                    | (byte == component)
                    | (byte == repetition)
                    | (byte == escape)
                    | (byte == subcomponent);
                found | delimits | !is_printable(byte)
            });
            if found {
                return block.iter().position(in_table).map(|at| start + at);
            }
            start += BLOCK;
        }
        blocks.remainder().iter().position(in_table).map(|at| start + at)
    }
}
