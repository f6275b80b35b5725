//! One line of ASK.md: its words are taken apart, the rules are asked once, and the answer is
//! written out. A verb has one function here; its rules stand in a module of their own.

use crate::acknowledgement;
use crate::element::{self, Address, State};
use crate::fields;
use crate::formatting;
use crate::frames::{self, Event, Fed, FrameState, Stop};
use crate::hex;
use crate::numbers::{self, Numeric};
use crate::reading::{self, refuse, Refusal};
use crate::structure::{self, Misfit};
use crate::text::{self, Delimiters};
use crate::times::{self, Offset, Time};
use crate::verdict::{self, Fault};

/// The line buffer of the program `ask`, in bytes without the LF.
pub const LONGEST_LINE: usize = 300_000;

/// "`ROOM` is the size of the buffer lent, at most 65,536 (more: `?`)."
pub const MOST_ROOM: u64 = 65_536;

/// "A MSG of over 65,536 bytes is answered by the program itself, which can't hold it." (W6)
pub const LONGEST_HELD: usize = 65_536;

/// "Before the call each of its bytes is A5."
const UNWRITTEN: u8 = 0xA5;

/// What the asker has room for: a line without its LF, a buffer to be lent, and a message, in
/// bytes.
#[derive(Clone, Copy)]
pub struct Asker {
    longest_line: usize,
    most_room: u64,
    longest_held: usize,
}

/// The program `ask`.
pub const PROGRAM: Asker =
    Asker { longest_line: LONGEST_LINE, most_room: MOST_ROOM, longest_held: LONGEST_HELD };

/// A C program that has room for whatever is asked: "the range above 65,536 bytes cannot be asked
/// through `ask`" (W6's ruling 22).
pub const FROM_C: Asker =
    Asker { longest_line: usize::MAX, most_room: u64::MAX, longest_held: usize::MAX };

impl Asker {
    /// The answer to a line that came without its LF: `?` where it is no question.
    pub fn answer(self, line: &[u8]) -> String {
        answer_question(self, line).unwrap_or_else(|| "?".to_string())
    }

    /// "Programs that take a message whole say 1 themselves beyond 65,536 bytes, before anything
    /// else, in the form of what was asked (for `ack` before 16 and 17), and write nothing." (W6's
    /// ruling 21) A line that is no question is none all the same.
    fn hold(self, message: &[u8]) -> Result<(), Refusal> {
        if message.len() > self.longest_held {
            return refuse(1, 0);
        }
        Ok(())
    }

    fn room_lent(self, word: &[u8]) -> Option<usize> {
        let room = number(word)?;
        (room <= self.most_room).then_some(room as usize)
    }
}

fn answer_question(asker: Asker, line: &[u8]) -> Option<String> {
    if line.len() > asker.longest_line {
        return None;
    }
    // Every single space parts two words: where two stand together, the word between them is empty,
    // and no verb, number or bytes are written as an empty word.
    let words: Vec<&[u8]> = line.split(|&byte| byte == b' ').collect();
    let (verb, words) = words.split_first()?;
    match *verb {
        b"read" => answer_read(asker, words),
        b"find" => answer_find(asker, words),
        b"nm" => answer_value(asker, words, numbers::numeric, numeric_words),
        b"si" => answer_value(asker, words, numbers::sequence_number, i64::to_string),
        b"dt" => answer_value(asker, words, times::date, time_words),
        b"tm" => answer_value(asker, words, times::time_of_day, time_words),
        b"ts" => answer_value(asker, words, times::time_stamp, time_words),
        b"escape" => answer_text(asker, words, text::escape),
        b"unescape" => answer_text(asker, words, text::unescape),
        b"format" => answer_text(asker, words, formatting::format),
        b"structure" => answer_structure(asker, words),
        b"verdict" => answer_verdict(asker, words),
        b"ack" => answer_acknowledgement(asker, words),
        b"frame" => answer_frame(asker, words),
        b"frames" => answer_frames(asker, words),
        _ => None,
    }
}

/// `read MSG` is answered `NUMBER PLACE`.
fn answer_read(asker: Asker, words: &[&[u8]]) -> Option<String> {
    let [message] = words else { return None };
    let message = bytes(message)?;
    Some(match asker.hold(&message).and_then(|()| reading::read(&message)) {
        Ok(()) => "0 0".to_string(),
        Err(refusal) => format!("{} {}", refusal.number, refusal.place),
    })
}

/// `find MSG S F R C U` is answered `NUMBER PLACE STATE START END`, the last two "`0 0` where absent"
/// and after a refusal.
fn answer_find(asker: Asker, words: &[&[u8]]) -> Option<String> {
    let (message, address) = message_and_address(words)?;
    Some(match asker.hold(&message).and_then(|()| element::find(&message, &address)) {
        Ok(element) => {
            let state = state_word(element.state);
            format!("0 0 {state} {} {}", element.part.start, element.part.end)
        }
        Err(refusal) => format!("{} {} - 0 0", refusal.number, refusal.place),
    })
}

/// `nm`, `si`, `dt`, `tm` and `ts` are answered `NUMBER PLACE STATE` and the words of the value. A
/// default value, which is 0 or has no part, stands where the element is not present or was refused.
fn answer_value<Value: Default>(
    asker: Asker,
    words: &[&[u8]],
    read_value: fn(&[u8]) -> Result<Value, Refusal>,
    value_words: fn(&Value) -> String,
) -> Option<String> {
    let (message, address) = message_and_address(words)?;
    let found = || element::find_value(&message, &address, read_value);
    Some(match asker.hold(&message).and_then(|()| found()) {
        Ok((state, value)) => {
            format!("0 0 {} {}", state_word(state), value_words(&value.unwrap_or_default()))
        }
        Err(refusal) => {
            format!("{} {} - {}", refusal.number, refusal.place, value_words(&Value::default()))
        }
    })
}

/// `escape`, `unescape` and `format` are asked by `TEXT DELIMITERS ROOM`; "DELIMITERS are five bytes: field,
/// component, repetition, escape, subcomponent".
fn answer_text(
    asker: Asker,
    words: &[&[u8]],
    write_text: fn(&[u8], Delimiters, usize) -> Result<Vec<u8>, Refusal>,
) -> Option<String> {
    let [text, delimiters, room] = words else { return None };
    let text = bytes(text)?;
    let delimiters = Delimiters::try_from(bytes(delimiters)?).ok()?;
    let room = asker.room_lent(room)?;
    Some(written_words(write_text(&text, delimiters, room), room))
}

/// `NUMBER PLACE LENGTH BUFFER`, of what was written into so much room. "`BUFFER` is the whole buffer
/// after the call, so an answer shows what was written and that the rest stayed."
fn written_words(written: Result<Vec<u8>, Refusal>, room: usize) -> String {
    let mut buffer = vec![UNWRITTEN; room];
    match written {
        Ok(bytes) => {
            // "Fills the front of its buffer, its length is given, the bytes behind it stay."
            buffer[..bytes.len()].copy_from_slice(&bytes);
            format!("0 0 {} {}", bytes.len(), bytes_word(&buffer))
        }
        // "A refusal gives number and place, length 0, and writes nothing."
        Err(refusal) => format!("{} {} 0 {}", refusal.number, refusal.place, bytes_word(&buffer)),
    }
}

/// `structure MSG` is answered `NUMBER PLACE END NAMES`; accepted is "an empty list and a no"
/// (ruling 29).
fn answer_structure(asker: Asker, words: &[&[u8]]) -> Option<String> {
    let [message] = words else { return None };
    let message = bytes(message)?;
    let held = asker.hold(&message).map_err(Misfit::from);
    Some(match held.and_then(|()| structure::judge(&message)) {
        Ok(()) => format!("0 0 {}", end_and_names(false, &[])),
        Err(Misfit { refusal, could_end, names }) => {
            format!("{} {} {}", refusal.number, refusal.place, end_and_names(could_end, &names))
        }
    })
}

/// `verdict MSG` is answered `NUMBER PLACE FIELD REPETITION END NAMES`; "PLACE is the byte offset
/// or the segment, as the paper says for that number".
fn answer_verdict(asker: Asker, words: &[&[u8]]) -> Option<String> {
    let [message] = words else { return None };
    let message = bytes(message)?;
    let held = asker.hold(&message).map_err(|refusal| Fault::OfStructure(refusal.into()));
    Some(match held.and_then(|()| verdict::judge(&message)) {
        Ok(()) => format!("0 0 0 0 {}", end_and_names(false, &[])),
        Err(Fault::OfStructure(Misfit { refusal, could_end, names })) => {
            let end_and_names = end_and_names(could_end, &names);
            format!("{} {} 0 0 {end_and_names}", refusal.number, refusal.place)
        }
        Err(Fault::OfField(fields::Fault { number, segment, field, repetition })) => {
            format!("{number} {segment} {field} {repetition} {}", end_and_names(false, &[]))
        }
    })
}

/// `ack MSG TIME ID ROOM` is answered `NUMBER PLACE LENGTH BUFFER`.
fn answer_acknowledgement(asker: Asker, words: &[&[u8]]) -> Option<String> {
    let [message, time, id, room] = words else { return None };
    let (message, time, id) = (bytes(message)?, bytes(time)?, bytes(id)?);
    let room = asker.room_lent(room)?;
    let acknowledge = || acknowledgement::acknowledge(&message, &time, &id, room);
    Some(written_words(asker.hold(&message).and_then(|()| acknowledge()), room))
}

/// `frame MODE HELD COUNT PIECE ROOM` is answered `NUMBER USED STOP LENGTH MODE HELD COUNT BUFFER`. "The
/// buffer is ROOM bytes of A5, also those that HELD says were gathered."
fn answer_frame(asker: Asker, words: &[&[u8]]) -> Option<String> {
    let [mode, held, count, piece, room] = words else { return None };
    let state = FrameState { mode: number(mode)?, held: number(held)?, count: number(count)? };
    let piece = bytes(piece)?;
    let mut buffer = vec![UNWRITTEN; asker.room_lent(room)?];
    let Fed { stop, used, state } = frames::feed(state, &piece, &mut buffer);
    let (number, stop, length) = match stop {
        Stop::More => (0, "more", 0),
        Stop::Frame(length) => (0, "frame", length),
        Stop::Drop(number) => (number, "drop", 0),
        Stop::Refused => (14, "-", 0),
    };
    let state = frame_state_words(state);
    Some(format!("{number} {used} {stop} {length} {state} {}", bytes_word(&buffer)))
}

/// `frames ROOM PIECE ...`, "one piece or more", is answered `EVENTS MODE HELD COUNT BUFFER`.
fn answer_frames(asker: Asker, words: &[&[u8]]) -> Option<String> {
    let (room, pieces) = words.split_first()?;
    if pieces.is_empty() {
        return None;
    }
    let pieces = pieces.iter().map(|piece| bytes(piece)).collect::<Option<Vec<_>>>()?;
    let mut buffer = vec![UNWRITTEN; asker.room_lent(room)?];
    let (events, state) = frames::feed_all(&pieces, &mut buffer);
    let state = frame_state_words(state);
    Some(format!("{} {state} {}", events_word(&events), bytes_word(&buffer)))
}

fn frame_state_words(state: FrameState) -> String {
    format!("{} {} {}", state.mode, state.held, state.count)
}

/// "EVENTS are joined by commas: `f` and the frame's bytes in hex (`f-` for an empty frame), `40`,
/// `41`; `-` where there was none."
fn events_word(events: &[Event]) -> String {
    if events.is_empty() {
        return "-".to_string();
    }
    let words: Vec<String> = events.iter().map(event_word).collect();
    words.join(",")
}

fn event_word(event: &Event) -> String {
    match event {
        Event::Frame(message) => format!("f{}", bytes_word(message)),
        Event::Drop(number) => number.to_string(),
    }
}

/// "END is `yes` or `no`; NAMES joined by commas, `-` where none."
fn end_and_names(could_end: bool, names: &[&str]) -> String {
    let end = if could_end { "yes" } else { "no" };
    let names = if names.is_empty() { "-".to_string() } else { names.join(",") };
    format!("{end} {names}")
}

/// `MSG S F R C U`: "segment, field, repetition, component and subcomponent".
fn message_and_address(words: &[&[u8]]) -> Option<(Vec<u8>, Address)> {
    let [message, segment, field, repetition, component, subcomponent] = words else {
        return None;
    };
    let address = Address {
        segment: number(segment)?,
        field: number(field)?,
        repetition: number(repetition)?,
        component: number(component)?,
        subcomponent: number(subcomponent)?,
    };
    Some((bytes(message)?, address))
}

fn state_word(state: State) -> &'static str {
    match state {
        State::Absent => "absent",
        State::Empty => "empty",
        State::Null => "null",
        State::Present => "present",
    }
}

/// `VALUE DECIMALS`; "VALUE signed".
fn numeric_words(numeric: &Numeric) -> String {
    format!("{} {}", numeric.value, numeric.decimals)
}

/// `YEAR MONTH DAY HOUR MINUTE SECOND FRACTION DIGITS OFFSET`; "FRACTION is the fraction's digits
/// as a number and DIGITS their count; OFFSET is a sign and four digits, as `+1000`".
fn time_words(time: &Time) -> String {
    let fraction = time.fraction.as_ref();
    [
        part_word(time.year),
        part_word(time.month),
        part_word(time.day),
        part_word(time.hour),
        part_word(time.minute),
        part_word(time.second),
        part_word(fraction.map(|fraction| fraction.value)),
        part_word(fraction.map(|fraction| fraction.digits)),
        part_word(time.offset.as_ref().map(offset_word)),
    ]
    .join(" ")
}

fn offset_word(offset: &Offset) -> String {
    format!("{}{:02}{:02}", offset.sign, offset.hours, offset.minutes)
}

/// "A part that was not sent is `-`."
fn part_word(part: Option<impl ToString>) -> String {
    part.map_or("-".to_string(), |part| part.to_string())
}

/// "Numbers are decimal"; "a number over 2^64-1" is none.
fn number(word: &[u8]) -> Option<u64> {
    if word.is_empty() {
        return None;
    }
    word.iter().try_fold(0u64, |number, byte| match byte {
        b'0'..=b'9' => number.checked_mul(10)?.checked_add(u64::from(byte - b'0')),
        _ => None,
    })
}

/// "Bytes are hex, two digits a byte, either case; `-` is no bytes."
fn bytes(word: &[u8]) -> Option<Vec<u8>> {
    if word == b"-" {
        return Some(Vec::new());
    }
    hex::bytes_of_pairs(word)
}

/// "The program answers in lower-case hex."
pub fn bytes_word(bytes: &[u8]) -> String {
    if bytes.is_empty() {
        return "-".to_string();
    }
    let digits = bytes.iter().flat_map(|byte| [byte >> 4, byte & 15]);
    digits.map(|digit| char::from(b"0123456789abcdef"[usize::from(digit)])).collect()
}
