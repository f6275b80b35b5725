//! Formatted text: its commands are carried out in one pass over the text, into memory of its own, since
//! a refusal writes nothing. Words that fit on the line together are copied in one piece; where they do
//! not, the line is broken at the last blank that fits.

use crate::bytes::{find, find_far, is_printable, wrong_delimiter, Delimiters};
use crate::bytes::{BLANK, CR, ESCAPE, LF, NULL};
use crate::text::{digit, is_pairs, LETTERS};
use crate::{Answer, Refusal};

/// No line is longer, and no number larger.
const WIDTH: usize = 200;

/// How far numbers are told apart: every larger one is outside.
const OUTSIDE: usize = 1_000;

/// The lines are copied in pieces of so many bytes: for more, memcpy takes an instruction that is counted
/// once for each byte.
const PIECE: usize = 1_024;

#[inline]
pub fn format(delimiters: &Delimiters, text: &[u8], buffer: &mut [u8]) -> Answer {
    if let Some(place) = wrong_delimiter(delimiters) {
        return Refusal { number: 3, place }.into();
    }
    if text == NULL {
        return Refusal { number: 15, place: 0 }.into();
    }
    let Some(lines) = lines_of(text, delimiters) else {
        return why_refused(text, delimiters).into();
    };
    if lines.len() > buffer.len() {
        return Refusal { number: 14, place: 0 }.into();
    }
    for (to, from) in buffer.chunks_mut(PIECE).zip(lines.chunks(PIECE)) {
        to[..from.len()].copy_from_slice(from);
    }
    Answer { length: lines.len(), ..Answer::default() }
}

/// The lines of a text, or nothing where it has a fault of any kind.
fn lines_of(text: &[u8], delimiters: &Delimiters) -> Option<Vec<u8>> {
    if has_fault_byte(text, delimiters) {
        return None;
    }
    let mark = delimiters[ESCAPE];
    let mut lines = Lines::with_room_for(text.len());
    let mut rest = text;
    while let Some(run) = find_far::<16>(rest, mark) {
        if run > 0 {
            lines.put(&rest[..run])?;
        }
        let behind = &rest[run + 1..];
        // By far the commonest.
        if let [b'.', b'b', b'r', close, ..] = behind {
            if *close == mark {
                lines.break_line();
                rest = &behind[4..];
                continue;
            }
        }
        let end = find(behind, mark)?;
        lines.obey(&behind[..end], delimiters)?;
        rest = &behind[end + 1..];
    }
    if !rest.is_empty() {
        lines.put(rest)?;
    }
    lines.centre_line();
    Some(lines.written)
}

/// Whether a byte stands anywhere that only a text with a fault has: no sequence has one in it either.
/// By least distances, which take fewer instructions than comparisons do.
fn has_fault_byte(text: &[u8], delimiters: &Delimiters) -> bool {
    const DELETE: u8 = 0x7F;
    let [field, component, repetition, _, subcomponent] = *delimiters;
    let (distance, low_bits) = text.iter().fold((0xFF, 0xFF), |(distance, low_bits), &byte| {
        let distance = u8::min(distance, byte ^ field)
            .min(byte ^ component)
            .min(byte ^ repetition)
            .min(byte ^ subcomponent)
            .min(byte ^ DELETE);
        (distance, u8::min(low_bits, byte & 0x7F))
    });
    // 00 to 1F and 80 to 9F have the same low bits.
    (distance == 0) | (low_bits < 0x20)
}

/// What is written, and what is known of the line at its end.
struct Lines {
    written: Vec<u8>,
    /// Where the line begins.
    start: usize,
    /// Where a word that is open at the end begins at the earliest: behind what a command ended.
    floor: usize,
    /// Where the word begins that was the last to be put on a line of its own, since it did not fit.
    wrapped: usize,
    /// The last byte is one of a word, and the next may be.
    open: bool,
    /// Blanks asked for that are not written.
    owed: usize,
    margin: usize,
    /// Where the line begins, while it is empty.
    left: usize,
    fill: bool,
    centre: bool,
    after_cr: bool,
}

impl Lines {
    /// Room for a text with usual margins: more is taken where it is needed.
    fn with_room_for(length: usize) -> Lines {
        Lines {
            written: Vec::with_capacity(length + length / 8 + WIDTH),
            start: 0,
            floor: 0,
            wrapped: usize::MAX,
            open: false,
            owed: 0,
            margin: 0,
            left: 0,
            fill: true,
            centre: false,
            after_cr: false,
        }
    }

    fn line_length(&self) -> usize {
        self.written.len() - self.start
    }

    fn put_blanks(&mut self, count: usize) {
        if count > 0 {
            self.written.resize(self.written.len() + count, BLANK);
        }
    }

    /// Plain bytes, at least one, of which none is a line end.
    #[inline(always)]
    fn put(&mut self, run: &[u8]) -> Option<()> {
        self.after_cr = false;
        let mut words = run;
        if words[0] == BLANK {
            words = words.behind_blanks();
            self.owed += run.len() - words.len();
            self.open = false;
            if words.is_empty() {
                return Some(());
            }
        }
        let all = words.len();
        if words[all - 1] == BLANK {
            words = words.before_blanks();
        }
        let lead = self.lead();
        if self.line_length() + lead + words.len() <= WIDTH {
            self.put_blanks(lead);
            self.written.extend_from_slice(words);
        } else {
            self.put_wrapped(words)?;
        }
        self.owed = all - words.len();
        self.open = self.owed == 0;
        Some(())
    }

    /// The blanks that a word is put behind.
    #[inline(always)]
    fn lead(&self) -> usize {
        if self.open {
            0
        } else if self.line_length() == 0 && !self.centre {
            self.owed + self.left
        } else {
            self.owed
        }
    }

    /// Words that do not fit on the line together, with no blank before or behind them.
    #[inline(never)]
    fn put_wrapped(&mut self, mut words: &[u8]) -> Option<()> {
        if !self.fill {
            return None;
        }
        loop {
            let lead = self.lead();
            let used = self.line_length() + lead;
            if used + words.len() <= WIDTH {
                self.put_blanks(lead);
                self.written.extend_from_slice(words);
                return Some(());
            }
            let fitting = fitting(words, WIDTH.saturating_sub(used));
            if fitting > 0 {
                self.put_blanks(lead);
                self.written.extend_from_slice(words[..fitting].before_blanks());
                words = words[fitting..].behind_blanks();
                self.open_line(&[]);
            } else if self.open {
                self.take_down_word()?;
            } else {
                self.open_line(&[]);
            }
        }
    }

    /// A word that is open does not fit, now that it goes on: it is put on a line of its own, once.
    fn take_down_word(&mut self) -> Option<()> {
        let line = &self.written[self.start..];
        let behind_blank = line.iter().rposition(|&byte| byte == BLANK).map_or(0, |at| at + 1);
        let begin = self.floor.max(self.start + behind_blank);
        if begin == self.wrapped {
            return None;
        }
        let word = self.written.split_off(begin);
        let length = self.written[self.start..].before_blanks().len();
        self.written.truncate(self.start + length);
        self.open_line(&word);
        Some(())
    }

    /// Ends the line and begins the next with a word, or with one that is still to come.
    fn open_line(&mut self, word: &[u8]) {
        self.end_line();
        self.put_blanks(self.margin);
        self.wrapped = self.written.len();
        self.written.extend_from_slice(word);
        self.open = true;
    }

    #[inline(always)]
    fn end_line(&mut self) {
        self.centre_line();
        self.written.push(LF);
        self.start = self.written.len();
        self.open = false;
        self.owed = 0;
        self.left = self.margin;
        self.centre = false;
    }

    #[inline(always)]
    fn break_line(&mut self) {
        self.after_cr = false;
        self.end_line();
    }

    fn blanks_to_centre(&self) -> usize {
        match self.line_length() {
            length @ 1.. if self.centre => (WIDTH - length) / 2,
            _ => 0,
        }
    }

    #[inline(always)]
    fn centre_line(&mut self) {
        if self.centre {
            let blanks = std::iter::repeat(BLANK).take(self.blanks_to_centre());
            self.written.splice(self.start..self.start, blanks);
        }
    }

    /// A command leaves the word before it as it is.
    fn end_word(&mut self) {
        self.after_cr = false;
        self.open = false;
        self.floor = self.written.len();
    }

    /// What stands between two escape delimiters.
    #[inline(always)]
    fn obey(&mut self, inside: &[u8], delimiters: &Delimiters) -> Option<()> {
        match inside {
            b".br" => self.break_line(),
            [b'H' | b'N'] => {}
            [letter] => {
                let number = LETTERS.iter().position(|known| known == letter)?;
                return self.put(&delimiters[number..=number]);
            }
            [b'X', digits @ ..] if is_pairs(digits) => return self.put_digits(digits),
            [b'.', first, second, number @ ..] => return self.command([*first, *second], number),
            _ => return None,
        }
        Some(())
    }

    fn put_digits(&mut self, digits: &[u8]) -> Option<()> {
        for pair in digits.chunks_exact(2) {
            match digit(pair[0]) << 4 | digit(pair[1]) {
                LF if self.after_cr => self.after_cr = false,
                byte @ (CR | LF) => {
                    self.end_line();
                    self.after_cr = byte == CR;
                }
                byte => self.put(&[byte])?,
            }
        }
        Some(())
    }

    fn command(&mut self, name: [u8; 2], number: &[u8]) -> Option<()> {
        self.end_word();
        match (&name, number) {
            (b"fi", b"") => self.fill = true,
            (b"nf", b"") => self.fill = false,
            (b"ce", b"") => {
                self.end_line();
                self.centre = true;
            }
            (b"sp", b"") => self.space(1),
            (b"sp", _) => self.space(unsigned(number)?),
            (b"sk", _) => self.owed += unsigned(number)?,
            (b"in", _) => {
                self.margin = self.moved_margin(number)?;
                self.left = self.margin;
            }
            (b"ti", _) => self.left = self.moved_margin(number)?,
            _ => return None,
        }
        Some(())
    }

    fn space(&mut self, lines: usize) {
        if lines == 0 {
            return;
        }
        let length = self.line_length();
        let reached = if length == 0 { self.left } else { self.blanks_to_centre() + length };
        let column = reached + self.owed;
        self.end_line();
        self.written.resize(self.start + lines - 1, LF);
        self.start = self.written.len();
        self.left = column;
    }

    fn moved_margin(&self, number: &[u8]) -> Option<usize> {
        let (minus, size) = parsed(number)?;
        let margin = if minus { self.margin.checked_sub(size)? } else { self.margin + size };
        (margin <= WIDTH && size <= WIDTH).then_some(margin)
    }
}

/// How many of the first bytes are words that fit whole into so much room, and blanks behind them. There
/// are more bytes than room.
fn fitting(words: &[u8], room: usize) -> usize {
    if words[room] == BLANK {
        return room;
    }
    words[..room].iter().rposition(|&byte| byte == BLANK).unwrap_or(0)
}

trait Blanks {
    fn behind_blanks(&self) -> &Self;
    fn before_blanks(&self) -> &Self;
}

impl Blanks for [u8] {
    #[inline(always)]
    fn behind_blanks(&self) -> &[u8] {
        let blanks = self.iter().take_while(|&&byte| byte == BLANK).count();
        &self[blanks..]
    }

    #[inline(always)]
    fn before_blanks(&self) -> &[u8] {
        let blanks = self.iter().rev().take_while(|&&byte| byte == BLANK).count();
        &self[..self.len() - blanks]
    }
}

/// A number's sign and size: at most one blank, at most one sign, and digits.
fn parsed(number: &[u8]) -> Option<(bool, usize)> {
    let number = number.strip_prefix(&[BLANK]).unwrap_or(number);
    let (minus, digits) = match number {
        [b'-', digits @ ..] => (true, digits),
        [b'+', digits @ ..] => (false, digits),
        digits => (false, digits),
    };
    if digits.is_empty() {
        return None;
    }
    let mut size = 0;
    for digit in digits {
        if !digit.is_ascii_digit() {
            return None;
        }
        size = OUTSIDE.min(10 * size + usize::from(digit - b'0'));
    }
    Some((minus, size))
}

fn unsigned(number: &[u8]) -> Option<usize> {
    let (minus, size) = parsed(number)?;
    (size <= WIDTH && (size == 0 || !minus)).then_some(size)
}

/// The first of 4, 11, 12 and 13 in a text that is refused, else 42.
#[cold]
fn why_refused(text: &[u8], delimiters: &Delimiters) -> Refusal {
    let mark = delimiters[ESCAPE];
    let mut place = 0;
    while place < text.len() {
        let byte = text[place];
        if !is_printable(byte) {
            return Refusal { number: 4, place };
        }
        if byte != mark {
            if delimiters.contains(&byte) {
                return Refusal { number: 11, place };
            }
            place += 1;
            continue;
        }
        let Some(end) = find(&text[place + 1..], mark) else {
            return Refusal { number: 13, place };
        };
        if !is_known(&text[place + 1..][..end]) {
            return Refusal { number: 12, place };
        }
        place += end + 2;
    }
    Refusal { number: 42, place: 0 }
}

/// Whether a sequence has a meaning, apart from the size of its number.
fn is_known(inside: &[u8]) -> bool {
    match inside {
        b".br" | b".ce" | b".fi" | b".nf" | b".sp" | b"H" | b"N" => true,
        [letter] => LETTERS.contains(letter),
        [b'X', digits @ ..] => is_pairs(digits),
        [b'.', b's', b'p' | b'k', number @ ..] => parsed(number).is_some(),
        [b'.', b'i', b'n', number @ ..] | [b'.', b't', b'i', number @ ..] => {
            parsed(number).is_some()
        }
        _ => false,
    }
}
