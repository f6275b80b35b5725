//! Formatted text: the text of an FT element as plain lines, by docs/FORMATTED.md. "It is unescaping
//! with more sequences": 3, then 15, then the leftmost of 4, 11, 12, 13, then 42, then 14. The place of 42
//! is 0.

use crate::reading::{refuse, Refusal, CR};
use crate::text::{self, Delimiters};

/// "The width is 200."
const WIDTH: usize = 200;

/// "A number must lie in 0..200 for `.sp` and `.sk`, in -200..200 for `.in` and `.ti`."
const LARGEST: i64 = 200;

/// "Blank is 0x20 and nothing else (0xA0 is a letter)."
const BLANK: u8 = 0x20;
const LF: u8 = 0x0A;

pub fn format(text: &[u8], delimiters: Delimiters, room: usize) -> Result<Vec<u8>, Refusal> {
    text::check_delimiters(delimiters)?;
    text::check_not_null(text)?;
    // 42 "is looked for only where the whole text holds no 4, 11, 12 or 13": all items come first.
    let items = items(text, delimiters)?;
    text::check_room(lines(&items)?, room)
}

/// What a text is made of, once its sequences are read. A highlight is no item.
enum Item {
    Byte(u8),
    /// `.br`
    Break,
    /// `.ce`
    Centre,
    /// `.fi`
    Fill,
    /// `.nf`
    DoNotFill,
    /// `.sp`
    Space(Number),
    /// `.sk`
    Skip(Number),
    /// `.in`
    Indent(Number),
    /// `.ti`
    IndentOnce(Number),
}

/// A number as it was sent: "leading zeros are free, the count of digits is free".
struct Number {
    negative: bool,
    digits: Vec<u8>,
}

fn items(text: &[u8], delimiters: Delimiters) -> Result<Vec<Item>, Refusal> {
    text::read_from_the_left(text, delimiters, Item::Byte, |inside| meaning(inside, delimiters))
}

/// The items that a sequence stands for, by what is between its escape delimiters: none for a
/// highlight, a command's one, or the bytes that unescaping gives. "Anything else: refused, 12."
fn meaning(inside: &[u8], delimiters: Delimiters) -> Option<Vec<Item>> {
    match inside {
        b"H" | b"N" => Some(Vec::new()),
        [b'.', command @ ..] => Some(vec![command_item(command)?]),
        _ => {
            let bytes = text::meaning(inside, delimiters)?;
            Some(bytes.into_iter().map(Item::Byte).collect())
        }
    }
}

/// A command, by what stands behind its point.
fn command_item(command: &[u8]) -> Option<Item> {
    match command {
        b"br" => Some(Item::Break),
        b"ce" => Some(Item::Centre),
        b"fi" => Some(Item::Fill),
        b"nf" => Some(Item::DoNotFill),
        b"sp" => Some(Item::Space(Number { negative: false, digits: b"1".to_vec() })),
        [b's', b'p', rest @ ..] => number(rest).map(Item::Space),
        [b's', b'k', rest @ ..] => number(rest).map(Item::Skip),
        [b'i', b'n', rest @ ..] => number(rest).map(Item::Indent),
        [b't', b'i', rest @ ..] => number(rest).map(Item::IndentOnce),
        _ => None,
    }
}

/// "`N` is: at most one blank, at most one sign (`+` or `-`), one or more digits, nothing else."
fn number(word: &[u8]) -> Option<Number> {
    let word = word.strip_prefix(&[BLANK]).unwrap_or(word);
    let (negative, digits) = match word {
        [b'+', digits @ ..] => (false, digits),
        [b'-', digits @ ..] => (true, digits),
        digits => (false, digits),
    };
    let is_number = !digits.is_empty() && digits.iter().all(u8::is_ascii_digit);
    is_number.then(|| Number { negative, digits: digits.to_vec() })
}

impl Number {
    /// The number where it is not below `least` nor above 200, else 42.
    fn at_least(&self, least: i64) -> Result<i64, Refusal> {
        let first = self.digits.iter().position(|&digit| digit != b'0');
        let digits = &self.digits[first.unwrap_or(self.digits.len())..];
        // What has four digits or more, of which the first is not 0, is over 200.
        if digits.len() > 3 {
            return refuse(42, 0);
        }
        let size = digits.iter().fold(0, |size, digit| 10 * size + i64::from(digit - b'0'));
        let number = if self.negative { -size } else { size };
        if number < least || number > LARGEST {
            return refuse(42, 0);
        }
        Ok(number)
    }

    fn unsigned(&self) -> Result<usize, Refusal> {
        Ok(self.at_least(0)? as usize)
    }

    fn signed(&self) -> Result<i64, Refusal> {
        self.at_least(-LARGEST)
    }
}

/// The state of the scan, part for part as the chapter 'From items to lines' has it, and the lines
/// that are written.
struct Page {
    written: Vec<u8>,
    /// "What stands on the present line."
    line: Vec<u8>,
    /// "Blanks asked for behind it, not written yet."
    owed: usize,
    /// "The word being read."
    word: Vec<u8>,
    margin: usize,
    /// "Where the present line will begin; used only while the line is empty."
    left: usize,
    fill: bool,
    /// "The present line is to be centred."
    centre: bool,
    /// "The item before was the byte CR."
    after_cr: bool,
}

/// "One scan from the left."
fn lines(items: &[Item]) -> Result<Vec<u8>, Refusal> {
    let mut page = Page {
        written: Vec::new(),
        line: Vec::new(),
        owed: 0,
        word: Vec::new(),
        margin: 0,
        left: 0,
        fill: true,
        centre: false,
        after_cr: false,
    };
    for item in items {
        page.take(item)?;
        page.after_cr = matches!(item, Item::Byte(CR));
    }
    // "End of the text: ends the word; the line is written, with no LF."
    page.end_word()?;
    page.write_line();
    Ok(page.written)
}

impl Page {
    fn take(&mut self, item: &Item) -> Result<(), Refusal> {
        if let Item::Byte(byte) = *item {
            if !matches!(byte, BLANK | CR | LF) {
                self.word.push(byte);
                return Ok(());
            }
        }
        // "Each of the following first ends the word."
        self.end_word()?;
        match item {
            Item::Byte(BLANK) => self.owed += 1,
            // "CR, LF, or CR with LF behind it: ends the line, once."
            Item::Byte(LF) if self.after_cr => {}
            Item::Byte(_) | Item::Break => self.end_line(),
            Item::Centre => {
                self.end_line();
                self.centre = true;
            }
            Item::Fill => self.fill = true,
            Item::DoNotFill => self.fill = false,
            Item::Space(number) => self.space(number.unsigned()?),
            Item::Skip(number) => self.owed += number.unsigned()?,
            Item::Indent(number) => {
                self.margin = self.moved_margin(number)?;
                self.left = self.margin;
            }
            Item::IndentOnce(number) => self.left = self.moved_margin(number)?,
        }
        Ok(())
    }

    fn end_word(&mut self) -> Result<(), Refusal> {
        let word = std::mem::take(&mut self.word);
        if word.is_empty() {
            return Ok(());
        }
        let mut lead = self.owed;
        if self.line.is_empty() && !self.centre {
            lead += self.left;
        }
        if self.line.len() + lead + word.len() <= WIDTH {
            self.put(lead, &word);
        } else if self.fill && self.margin + word.len() <= WIDTH {
            self.end_line();
            self.put(self.margin, &word);
        } else {
            return refuse(42, 0);
        }
        Ok(())
    }

    /// So many blanks and the word go on the line.
    fn put(&mut self, blanks: usize, word: &[u8]) {
        self.line.extend(vec![BLANK; blanks]);
        self.line.extend(word);
        self.owed = 0;
    }

    fn end_line(&mut self) {
        self.write_line();
        self.written.push(LF);
        self.line.clear();
        self.owed = 0;
        self.left = self.margin;
        self.centre = false;
    }

    fn write_line(&mut self) {
        self.written.extend(vec![BLANK; self.blanks_to_centre()]);
        self.written.extend(&self.line);
    }

    /// "If it is centred and not empty, (200 - its length) / 2 blanks, rounded down, go before it."
    fn blanks_to_centre(&self) -> usize {
        if self.centre && !self.line.is_empty() {
            (WIDTH - self.line.len()) / 2
        } else {
            0
        }
    }

    /// `.sp n`: "where n is not 0: the position is noted; the line is ended, and n - 1 empty lines with
    /// it; then `left` = that position".
    fn space(&mut self, count: usize) {
        if count == 0 {
            return;
        }
        let position = self.position();
        for _ in 0..count {
            self.end_line();
        }
        self.left = position;
    }

    /// "The length of the line as written (`left` where it is empty) + `owed`": as written, a centred
    /// line has blanks before it.
    fn position(&self) -> usize {
        let reached = if self.line.is_empty() {
            self.left
        } else {
            self.blanks_to_centre() + self.line.len()
        };
        reached + self.owed
    }

    /// "`margin` + n must be 0..200, else 42."
    fn moved_margin(&self, number: &Number) -> Result<usize, Refusal> {
        let moved = self.margin as i64 + number.signed()?;
        if !(0..=WIDTH as i64).contains(&moved) {
            return refuse(42, 0);
        }
        Ok(moved as usize)
    }
}
