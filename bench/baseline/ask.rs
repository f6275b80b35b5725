//! Answers questions to the baseline in the form of the program `ask`, one line for each. bench/check
//! compares the answers with the model's.
//!
//!     ask          with the limits of the program `ask`
//!     ask large    without them, as one asks from C

use baseline::{acknowledge, could_stand, dt, escape, feed, find, nm, read, si, structure, tm, ts};
use baseline::{
    unescape, verdict, Address, Answer, FrameState, Number, State, Stop, Time, Value, NOT_SENT,
};
use std::io::{self, BufRead, BufWriter, Write};

/// What the one who is asked has room for: a line, a buffer to be lent, and a message, in bytes.
struct Limits {
    line: usize,
    room: usize,
    message: usize,
}

const PROGRAM: Limits = Limits { line: 300_000, room: 65_536, message: 65_536 };
const NONE: Limits = Limits { line: usize::MAX, room: usize::MAX, message: usize::MAX };

/// What each byte of a lent buffer is before the call.
const UNWRITTEN: u8 = 0xA5;

fn main() -> io::Result<()> {
    let large = std::env::args().nth(1).is_some_and(|word| word == "large");
    let limits = if large { NONE } else { PROGRAM };
    let mut out = BufWriter::new(io::stdout().lock());
    for line in io::stdin().lock().split(b'\n') {
        let line = line?;
        writeln!(out, "{}", limits.answer(&line).unwrap_or_else(|| "?".to_string()))?;
    }
    out.flush()
}

impl Limits {
    fn answer(&self, line: &[u8]) -> Option<String> {
        if line.len() > self.line {
            return None;
        }
        let line = std::str::from_utf8(line).ok()?;
        let words: Vec<&str> = line.split(' ').collect();
        match words[..] {
            ["read", message] => {
                let Answer { number, place, .. } = read(&self.held(message)?);
                Some(format!("{number} {place}"))
            }
            [verb @ ("find" | "nm" | "si" | "dt" | "tm" | "ts"), message, ref levels @ ..] => {
                lookup_words(verb, &self.held(message)?, address(levels)?)
            }
            ["structure", message] => structure_words(&self.held(message)?),
            ["verdict", message] => verdict_words(&self.held(message)?),
            ["escape", text, delimiters, room] => self.text_words(text, delimiters, room, escape),
            ["unescape", text, delimiters, room] => {
                self.text_words(text, delimiters, room, unescape)
            }
            ["format", text, delimiters, room] => {
                self.text_words(text, delimiters, room, baseline::format)
            }
            ["ack", message, time, id, room] => {
                let (message, time, id) = (bytes(message)?, bytes(time)?, bytes(id)?);
                let mut buffer = self.buffer_of(room)?;
                let answer = if message.len() > self.message {
                    Answer { number: 1, ..Answer::default() }
                } else {
                    acknowledge(&message, &time, &id, &mut buffer)
                };
                Some(written_words(answer, &buffer))
            }
            ["frame", mode, held, count, piece, room] => {
                let (mode, held, count) = (number(mode)?, number(held)? as usize, number(count)?);
                let state = FrameState { mode, held, count };
                Some(frame_words(state, &bytes(piece)?, &mut self.buffer_of(room)?))
            }
            ["frames", room, _, ..] => {
                let pieces =
                    words[2..].iter().map(|piece| bytes(piece)).collect::<Option<Vec<_>>>()?;
                Some(line_words(&pieces, &mut self.buffer_of(room)?))
            }
            _ => None,
        }
    }

    /// A message, or no bytes where there is no room for it: both are refused by 1.
    fn held(&self, message: &str) -> Option<Vec<u8>> {
        let message = bytes(message)?;
        Some(if message.len() > self.message { Vec::new() } else { message })
    }

    fn text_words(
        &self,
        text: &str,
        delimiters: &str,
        room: &str,
        write: Writer,
    ) -> Option<String> {
        let delimiters = <[u8; 5]>::try_from(bytes(delimiters)?).ok()?;
        let mut buffer = self.buffer_of(room)?;
        let answer = write(&delimiters, &bytes(text)?, &mut buffer);
        Some(written_words(answer, &buffer))
    }

    fn buffer_of(&self, room: &str) -> Option<Vec<u8>> {
        let room = number(room)? as usize;
        (room <= self.room).then(|| vec![UNWRITTEN; room])
    }
}

fn lookup_words(verb: &str, message: &[u8], address: Address) -> Option<String> {
    let number_words = |number: Number| format!("{} {}", number.value, number.decimals);
    Some(match verb {
        "find" => {
            let found = find(message, address);
            let state = state_word(found.number, found.state);
            format!("{} {} {state} {} {}", found.number, found.place, found.start, found.end)
        }
        "nm" => value_words(nm(message, address), number_words),
        "si" => value_words(si(message, address), |number| number.value.to_string()),
        "dt" => value_words(dt(message, address), time_words),
        "tm" => value_words(tm(message, address), time_words),
        "ts" => value_words(ts(message, address), time_words),
        _ => return None,
    })
}

fn value_words<Said>(found: Value<Said>, said_words: impl Fn(Said) -> String) -> String {
    let state = state_word(found.number, found.state);
    format!("{} {} {state} {}", found.number, found.place, said_words(found.said))
}

fn state_word(number: u32, state: Option<State>) -> &'static str {
    match (number, state) {
        (0, None) => "absent",
        (0, Some(State::Empty)) => "empty",
        (0, Some(State::Null)) => "null",
        (0, Some(State::Present)) => "present",
        _ => "-",
    }
}

/// The parts of a time, `-` for those that were not sent.
fn time_words(time: Time) -> String {
    let digits = if time.digits == 0 { NOT_SENT } else { time.digits };
    let part_word = |part: u32| match part {
        NOT_SENT => "-".to_string(),
        _ => part.to_string(),
    };
    let parts = time.date.into_iter().chain(time.clock).chain([digits]);
    let mut words: Vec<String> = parts.map(part_word).collect();
    let [hours, minutes] = time.offset;
    words.push(match time.sign {
        0 => "-".to_string(),
        sign => format!("{}{hours:02}{minutes:02}", char::from(sign)),
    });
    words.join(" ")
}

/// The names are asked for one by one, as from C, up to the 0 behind the last of them.
fn structure_words(message: &[u8]) -> Option<String> {
    let found = structure(message);
    let names = (0..).map(|index| could_stand(message, index)).take_while(|&name| name != 0);
    let end_and_names = end_and_names(found.could_end, names);
    Some(format!("{} {} {end_and_names}", found.number, found.place))
}

fn verdict_words(message: &[u8]) -> Option<String> {
    let found = verdict(message);
    let end_and_names = end_and_names(found.could_end, found.names.iter());
    let (number, place, field) = (found.number, found.place, found.field);
    Some(format!("{number} {place} {field} {} {end_and_names}", found.repetition))
}

fn end_and_names(could_end: bool, names: impl Iterator<Item = u32>) -> String {
    let names: Vec<String> = names.map(letters).collect();
    let names = if names.is_empty() { "-".to_string() } else { names.join(",") };
    format!("{} {names}", if could_end { "yes" } else { "no" })
}

/// The letters of a name that is a number.
fn letters(name: u32) -> String {
    name.to_be_bytes()[1..].iter().map(|&byte| char::from(byte)).collect()
}

type Writer = fn(&[u8; 5], &[u8], &mut [u8]) -> Answer;

fn written_words(answer: Answer, buffer: &[u8]) -> String {
    format!("{} {} {} {}", answer.number, answer.place, answer.length, hex(buffer))
}

/// One call of the frame reader.
fn frame_words(state: FrameState, piece: &[u8], buffer: &mut [u8]) -> String {
    let fed = feed(state, piece, buffer);
    let stop = match fed.stop {
        Stop::More => "more",
        Stop::Frame => "frame",
        Stop::Drop => "drop",
        Stop::Refused => "-",
    };
    let (state, buffer) = (state_words(fed.state), hex(buffer));
    format!("{} {} {stop} {} {state} {buffer}", fed.number, fed.used, fed.length)
}

/// A line from its start, in pieces: every frame and dropped frame, and what is left at the end.
fn line_words(pieces: &[Vec<u8>], buffer: &mut [u8]) -> String {
    let mut state = FrameState::default();
    let mut events = Vec::new();
    for piece in pieces {
        let mut rest = &piece[..];
        while !rest.is_empty() {
            let fed = feed(state, rest, buffer);
            match fed.stop {
                Stop::More => {}
                Stop::Frame => events.push(format!("f{}", hex(&buffer[..fed.length]))),
                Stop::Drop => events.push(fed.number.to_string()),
                // No line is answered so: the reader refused a state of its own, and would for ever.
                Stop::Refused => return fed.number.to_string(),
            }
            state = fed.state;
            rest = &rest[fed.used..];
        }
    }
    let events = if events.is_empty() { "-".to_string() } else { events.join(",") };
    format!("{events} {} {}", state_words(state), hex(buffer))
}

fn state_words(state: FrameState) -> String {
    format!("{} {} {}", state.mode, state.held, state.count)
}

fn hex(bytes: &[u8]) -> String {
    if bytes.is_empty() {
        return "-".to_string();
    }
    const DIGITS: &[u8; 16] = b"0123456789abcdef";
    let digit = |number: u8| char::from(DIGITS[usize::from(number)]);
    bytes.iter().flat_map(|byte| [digit(byte >> 4), digit(byte & 15)]).collect()
}

/// Segment, field, repetition, component and subcomponent.
fn address(words: &[&str]) -> Option<Address> {
    let &[segment, field, repetition, component, subcomponent] = words else { return None };
    let level = |word| number(word).map(|number| number as usize);
    Some(Address {
        segment: level(segment)?,
        field: level(field)?,
        repetition: level(repetition)?,
        component: level(component)?,
        subcomponent: level(subcomponent)?,
    })
}

/// Digits alone, since `parse` takes a sign too.
fn number(word: &str) -> Option<u64> {
    let digits = word.bytes().all(|byte| byte.is_ascii_digit());
    digits.then(|| word.parse().ok())?
}

fn bytes(word: &str) -> Option<Vec<u8>> {
    if word == "-" {
        return Some(Vec::new());
    }
    if word.is_empty() || word.len() % 2 != 0 {
        return None;
    }
    let digit = |byte: u8| char::from(byte).to_digit(16).map(|digit| digit as u8);
    word.as_bytes().chunks(2).map(|pair| Some(digit(pair[0])? * 16 + digit(pair[1])?)).collect()
}
