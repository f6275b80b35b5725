//! The questions of the vectors. Each verb has a set of stored questions and a maker of fresh ones,
//! and most have a wide set that is not stored: what is complete over a small world, and what is as
//! large as a limit; and a large one, of what only C can ask. A new verb adds its modules below and
//! a line in each of the functions.

mod ack_fresh;
mod ack_large;
mod ack_stored;
mod ack_wide;
mod error_places;
mod filled;
mod find_stored;
mod format_fresh;
mod format_stored;
mod format_wide;
mod frame_fresh;
mod frame_large;
mod frame_stored;
mod frame_wide;
mod held_wide;
mod judge_large;
mod lifelike;
mod lookup_fresh;
mod lookup_large;
mod lookup_stored;
mod lookup_wide;
mod no_question;
mod number_stored;
mod read_fresh;
mod read_stored;
mod read_wide;
mod refused;
mod sound;
mod structure_fresh;
mod structure_stored;
mod structure_wide;
mod text_fresh;
mod text_large;
mod text_stored;
mod text_wide;
mod time_stored;
mod time_wide;
mod value_fresh;
mod verdict_fresh;
mod verdict_stored;
mod verdict_wide;

use crate::ask::bytes_word;
use crate::chance::Chance;
use crate::reading::{CR, LONGEST_ID, LONGEST_MESSAGE};
use crate::text::Delimiters;
use std::collections::HashSet;

pub type Bytes = Vec<u8>;

/// The verbs that ask for one element of a message, by the same words.
const LOOKUPS: [&str; 6] = ["find", "nm", "si", "dt", "tm", "ts"];

/// The verbs that write a text into a buffer, by the same words.
const TEXTS: [&str; 2] = ["escape", "unescape"];

/// The verbs that read frames: one call, and all calls for some pieces.
const FRAMES: [&str; 2] = ["frame", "frames"];

/// The delimiters that most senders use.
const USUAL_DELIMITERS: Delimiters = *br"|^~\&";

/// An address by its five numbers: segment, field, repetition, component, subcomponent.
type Numbers = [u64; 5];

/// A control ID as long as may be, and one of a byte more.
const LONG_IDS: [&str; 2] = [ascii(&[b'K'; LONGEST_ID]), ascii(&[b'K'; LONGEST_ID + 1])];

const fn ascii(bytes: &'static [u8]) -> &'static str {
    match std::str::from_utf8(bytes) {
        Ok(text) => text,
        Err(_) => panic!("these bytes are ASCII"),
    }
}

/// The questions of the stored vectors, in order, each a line without its LF.
pub fn stored() -> Vec<Bytes> {
    let mut lines = no_question::stored();
    lines.extend(read_stored::stored());
    let others = [
        find_stored::stored(),
        lookup_stored::stored(),
        number_stored::stored(),
        time_stored::stored(),
        text_stored::stored(),
        structure_stored::stored(),
        verdict_stored::stored(),
        ack_stored::stored(),
        frame_stored::stored(),
        format_stored::stored(),
    ];
    // Two sets may hold the same question: once is enough.
    lines.extend(once_each(others.concat()));
    lines
}

/// The questions of the wide sets, each a line without its LF.
pub fn wide() -> Vec<Bytes> {
    let sets = [
        read_wide::wide(),
        time_wide::wide(),
        text_wide::wide(),
        structure_wide::wide(),
        verdict_wide::wide(),
        ack_wide::wide(),
        frame_wide::wide(),
        format_wide::wide(),
        held_wide::wide(),
        limits(),
    ];
    once_each(sets.concat())
}

/// The part of them that is as large as a limit of the library, or as the program can hold, and
/// that the library answers: so C is told the same.
pub fn limits() -> Vec<Bytes> {
    let sets = [
        read_wide::limits(),
        lookup_wide::limits(),
        text_wide::limits(),
        structure_wide::limits(),
        verdict_wide::limits(),
        ack_wide::limits(),
        frame_wide::limits(),
        format_wide::limits(),
    ];
    once_each(sets.concat())
}

/// The questions that the program has no room for, each a line without its LF. They are as large as
/// a limit of the library, or larger than the program can hold, and only C can ask them.
pub fn large() -> Vec<Bytes> {
    let sets = [
        judge_large::large(),
        lookup_large::large(),
        ack_large::large(),
        frame_large::large(),
        text_large::large(),
    ];
    sets.concat()
}

/// One random question, a line without its LF: as many of each verb, but twice as many of `ack`, and
/// some damaged lines.
pub fn fresh(chance: &mut Chance) -> Bytes {
    if chance.one_in(12) {
        return no_question::fresh(chance);
    }
    fresh_question(chance)
}

fn fresh_question(chance: &mut Chance) -> Bytes {
    // An acknowledgement tells of every fault that the judges find, so it has most to be asked for.
    let others = ["read", "structure", "verdict", "ack", "ack", "format"];
    let verbs = [&others, &LOOKUPS[..], &TEXTS[..], &FRAMES[..]].concat();
    match chance.pick(&verbs) {
        "read" => read_fresh::fresh(chance),
        "structure" => structure_fresh::fresh(chance),
        "verdict" => verdict_fresh::fresh(chance),
        "ack" => ack_fresh::fresh(chance),
        verb @ ("escape" | "unescape") => text_fresh::fresh(chance, verb),
        "format" => format_fresh::fresh(chance),
        "frame" => frame_fresh::one_call(chance),
        "frames" => frame_fresh::all_pieces(chance),
        verb => lookup_fresh::fresh(chance, verb),
    }
}

/// The lines without those that came before.
fn once_each(lines: Vec<Bytes>) -> Vec<Bytes> {
    let mut asked = HashSet::new();
    lines.into_iter().filter(|line| asked.insert(line.clone())).collect()
}

fn read_question(message: &[u8]) -> Bytes {
    format!("read {}", bytes_word(message)).into_bytes()
}

fn lookup_question(verb: &str, message: &[u8], address: Numbers) -> Bytes {
    let [segment, field, repetition, component, subcomponent] = address;
    let address = format!("{segment} {field} {repetition} {component} {subcomponent}");
    format!("{verb} {} {address}", bytes_word(message)).into_bytes()
}

/// The question of a verb for a field that stands in the shortest message that can hold one.
fn field_question(verb: &str, field: &[u8]) -> Bytes {
    let message = [br"MSH|^~\&|", field, b"\r"].concat();
    lookup_question(verb, &message, [0, 3, 0, 0, 0])
}

fn text_question(verb: &str, text: &[u8], delimiters: &[u8], room: usize) -> Bytes {
    let (text, delimiters) = (bytes_word(text), bytes_word(delimiters));
    format!("{verb} {text} {delimiters} {room}").into_bytes()
}

/// What the formatted text takes, or none where there is none.
fn format_length(text: &[u8], delimiters: Delimiters) -> usize {
    crate::formatting::format(text, delimiters, usize::MAX).unwrap_or_default().len()
}

fn structure_question(message: &[u8]) -> Bytes {
    format!("structure {}", bytes_word(message)).into_bytes()
}

fn verdict_question(message: &[u8]) -> Bytes {
    format!("verdict {}", bytes_word(message)).into_bytes()
}

/// What the acknowledgement takes, or none where there is none.
fn enough_for(message: &[u8], time: &[u8], id: &[u8]) -> usize {
    crate::acknowledgement::acknowledge(message, time, id, usize::MAX).unwrap_or_default().len()
}

fn ack_question(message: &[u8], time: &[u8], id: &[u8], room: usize) -> Bytes {
    let (message, time, id) = (bytes_word(message), bytes_word(time), bytes_word(id));
    format!("ack {message} {time} {id} {room}").into_bytes()
}

/// A state is handed over by its three numbers: mode, bytes held, count.
fn frame_question(state: [u64; 3], piece: &[u8], room: usize) -> Bytes {
    let [mode, held, count] = state;
    format!("frame {mode} {held} {count} {} {room}", bytes_word(piece)).into_bytes()
}

fn frames_question(room: usize, pieces: &[&[u8]]) -> Bytes {
    let words: Vec<String> = pieces.iter().map(|piece| bytes_word(piece)).collect();
    format!("frames {room} {}", words.join(" ")).into_bytes()
}

/// A message of this type, MSH-9 as it stands, with these segments behind its header.
fn message_of_type(message_type: &str, segments: &[&str]) -> Bytes {
    let header = format!(r"MSH|^~\&|||||||{message_type}");
    message(&[&[&header[..]], segments].concat())
}

/// Repetition, component and subcomponent of every address of a field that splits into at most so
/// many of each, and of the next one past the last at each level, whole and by its first part.
fn addresses(repetitions: u64, components: u64, subcomponents: u64) -> Vec<[u64; 3]> {
    let mut addresses = vec![[0, 0, 0]];
    for repetition in 1..=repetitions {
        addresses.push([repetition, 0, 0]);
        for component in 1..=components {
            addresses.push([repetition, component, 0]);
            for subcomponent in 1..=subcomponents + 1 {
                addresses.push([repetition, component, subcomponent]);
            }
        }
        addresses.push([repetition, components + 1, 0]);
        addresses.push([repetition, components + 1, 1]);
    }
    addresses.push([repetitions + 1, 0, 0]);
    addresses.push([repetitions + 1, 1, 1]);
    addresses
}

/// The message, with letters at the end of its last segment until it has this many bytes.
fn stretched(mut message: Bytes, length: usize) -> Bytes {
    message.pop();
    message.resize(length - 1, b'x');
    message.push(CR);
    message
}

/// The text, with letters behind it until it has this many bytes in a message.
fn padded(text: &str, length: usize) -> String {
    text.chars().chain(('A'..='Z').cycle()).take(length).collect()
}

/// A message of as many bytes as may be, of this many segments, each about as long: the header, and
/// NTE behind an OBR, with others in the place of some. What stands there has to end in a field
/// that may hold anything.
fn long_message(count: usize, others: &[(usize, &str)]) -> Bytes {
    let header = filled::header_of_oru(&[(13, "")]);
    let mut segments = vec![&header[..], "OBR||"];
    segments.resize(count, "NTE|");
    for &(at, segment) in others {
        segments[at] = segment;
    }
    let length = LONGEST_MESSAGE / count - 1;
    let segments: Vec<String> = segments.iter().map(|segment| padded(segment, length)).collect();
    message(&segments.iter().map(String::as_str).collect::<Vec<_>>())
}

/// The bytes of a text in ISO 8859/1, where a character's number is its byte.
fn latin(text: &str) -> Bytes {
    text.chars().map(|character| character as u8).collect()
}

/// A message of these segments, each ended with CR.
fn message(segments: &[&str]) -> Bytes {
    segments.iter().flat_map(|segment| latin(&format!("{segment}\r"))).collect()
}

/// Every text of this length over these bytes.
fn texts(bytes: &[u8], length: usize) -> Vec<Bytes> {
    let mut texts = vec![Vec::new()];
    for _ in 0..length {
        texts = texts
            .iter()
            .flat_map(|text| bytes.iter().map(|&byte| [&text[..], &[byte]].concat()))
            .collect();
    }
    texts
}

/// The message with `byte` at `place`.
fn changed(message: &[u8], place: usize, byte: u8) -> Bytes {
    let mut changed = message.to_vec();
    changed[place] = byte;
    changed
}
