//! The stored questions of the verbs `frame` and `frames`: every short stream of bytes that have a
//! meaning, states that can and can't be reached, each mode with each byte, counts at their end, runs
//! of plain bytes about as long as a block, and telling streams cut at every place.

use super::{frame_question, frames_question, texts, Bytes};
use crate::frames::{BEGIN, END, INSIDE, INSIDE_BEHIND_END, MOST_COUNTED, OUTSIDE, SKIPPING};
use crate::reading::CR;

/// The bytes that have a meaning, and one that has none.
pub const TELLING: [u8; 4] = [BEGIN, END, CR, b'A'];

/// Bytes that are one bit or one number away from those, or at the ends.
pub const NEAR: [u8; 9] = [0x0A, 0x0C, 0x0E, 0x1B, 0x1D, 0x8B, 0x9C, 0x00, 0xFF];

/// By this piece each mode, and each number of bytes held about the limit, comes out differently.
pub const TELLING_PIECE: [u8; 3] = [CR, b'A', BEGIN];

/// A state of each mode over a room of 1, of mode 1 and 2 with nothing held and with all.
pub const STATES: [[u64; 3]; 7] =
    [[0, 0, 7], [1, 0, 7], [1, 1, 7], [2, 0, 7], [2, 1, 7], [3, 0, 7], [4, 0, 7]];

/// Lengths about those that are searched or copied at once.
pub const RUNS: [usize; 13] = [31, 32, 33, 63, 64, 65, 127, 128, 129, 130, 255, 256, 257];

pub fn stored() -> Vec<Bytes> {
    let questions = [
        samples(),
        short_streams(),
        states(),
        empty_pieces(),
        foreign_numbers(),
        each_mode_and_byte(),
        counts(),
        frames_of_runs(),
        other_runs(),
        near_bytes(),
        cut_streams(),
    ];
    questions.concat()
}

/// The samples of ASK.md and of the rulings.
fn samples() -> Vec<Bytes> {
    vec![
        frame_question([0, 0, 0], b"x\x0BAB\x1C\ry", 4),
        frame_question([1, 2, 7], b"", 2),
        frame_question([1, 3, 7], b"", 2),
        frame_question([1, 2, 0], b"X", 2),
        frame_question([2, 1, 0], b"\x0BA", 2),
        frames_question(2, &[b"\x0BA", b"B\x1C", b"\r\x0B", b"\x1C\r"]),
        frame_question([0, 0, 0], b"\x0BA\x0B", 2),
        frame_question([0, 0, 0], b"\x0B\x0B", 2),
        frames_question(2, &[b"\x0BABC\x1Cxy"]),
        frames_question(2, &[b"\x0BABC\x1C\x0BZ\x1C\r"]),
        frames_question(0, &[b"\x0B\x1C\r"]),
        frames_question(0, &[b"\x0BA"]),
    ]
}

/// Every stream of up to three telling bytes, and of four where there is no room, so that each mode is
/// reached behind each drop. The wide set has the longer ones.
fn short_streams() -> Vec<Bytes> {
    let mut lines = Vec::new();
    for (room, longest) in [(0, 4), (1, 3), (2, 3)] {
        for length in 0..=longest {
            let streams = texts(&TELLING, length);
            lines.extend(streams.iter().map(|stream| frames_question(room, &[stream])));
        }
    }
    lines
}

/// Each known mode with fewer bytes held than the limit, as many, and more.
fn states() -> Vec<Bytes> {
    let mut lines = Vec::new();
    for room in 0..=3 {
        for mode in 0..=4 {
            for held in [0, 1, 2, 3, 4, u64::MAX] {
                lines.push(frame_question([mode, held, 7], &TELLING_PIECE, room));
            }
        }
    }
    lines
}

/// A state that can't be reached is 14 "also for an empty piece"; of another nothing changes.
fn empty_pieces() -> Vec<Bytes> {
    let mut lines = Vec::new();
    for mode in 0..=5 {
        for held in [0, 1, 2] {
            lines.push(frame_question([mode, held, 7], b"", 1));
        }
        for count in [0, MOST_COUNTED, MOST_COUNTED + 1] {
            lines.push(frame_question([mode, 0, count], b"", 1));
        }
    }
    lines
}

/// Modes that are none, and numbers that come out as one that is right where they are cut to fewer
/// bits.
fn foreign_numbers() -> Vec<Bytes> {
    let modes =
        [5, 6, 128, 255, 256, 257, 258, 259, 260, 0x1_0001, 0x1_0000_0000, 0x1_0000_0001, u64::MAX];
    let held_too_many = [255, 256, 257, 0x1_0000, 0x1_0000_0000, 0x1_0000_0001, u64::MAX - 1];
    let counts = [MOST_COUNTED + 1, MOST_COUNTED + 2, 1 << 63, u64::MAX - 1, u64::MAX];
    let mut lines = Vec::new();
    for mode in modes {
        lines.push(frame_question([mode, 0, 0], &TELLING_PIECE, 1));
    }
    for mode in [OUTSIDE, INSIDE, INSIDE_BEHIND_END] {
        for held in held_too_many {
            lines.push(frame_question([mode, held, 0], &TELLING_PIECE, 1));
        }
    }
    for mode in 0..=4 {
        for count in counts {
            lines.push(frame_question([mode, 0, count], &TELLING_PIECE, 1));
        }
    }
    lines.push(frame_question([u64::MAX; 3], &TELLING_PIECE, 1));
    lines.push(frame_question([5, 2, MOST_COUNTED + 1], &TELLING_PIECE, 1));
    lines.push(frame_question([u64::MAX; 3], b"", 0));
    lines
}

fn each_mode_and_byte() -> Vec<Bytes> {
    let mut lines = Vec::new();
    for state in STATES {
        for byte in TELLING.into_iter().chain(NEAR) {
            lines.push(frame_question(state, &[byte], 1));
        }
    }
    lines
}

/// "The count stays at 2^32-1": bytes counted up to there and over it, at once and between frames,
/// and a count as large as may be in each mode.
fn counts() -> Vec<Bytes> {
    let mut lines = Vec::new();
    for count in [MOST_COUNTED - 40, MOST_COUNTED - 2, MOST_COUNTED - 1, MOST_COUNTED] {
        for stray in [1, 2, 3, 40] {
            lines.push(frame_question([OUTSIDE, 0, count], &vec![b'x'; stray], 0));
        }
        lines.push(frame_question([OUTSIDE, 0, count], b"xx\x0BA\x1C\rx", 1));
        lines.push(frame_question([INSIDE_BEHIND_END, 1, count], b"\rxx", 1));
        lines.push(frame_question([4, 0, count], b"xxx\x0B\x0B", 0));
    }
    for state in STATES {
        let [mode, held, _] = state;
        lines.push(frame_question([mode, held, MOST_COUNTED], &TELLING_PIECE, 1));
    }
    lines
}

/// So many bytes with no meaning, of which none in a block is like the one in the next.
pub fn plain(length: usize) -> Bytes {
    (0..length).map(|place| b' ' + (place % 89) as u8).collect()
}

/// A frame of this message.
pub fn frame_of(message: &[u8]) -> Bytes {
    [&[BEGIN], message, &[END, CR]].concat()
}

/// Frames with just enough room; the shorter ones with one byte of room too few, and with one too
/// many.
fn frames_of_runs() -> Vec<Bytes> {
    let frame_in = |length: usize, room| frame_question([0, 0, 0], &frame_of(&plain(length)), room);
    let mut lines = RUNS.map(|length| frame_in(length, length)).to_vec();
    lines.extend(shorter_runs().map(|length| frame_in(length, length - 1)));
    lines.extend([32, 64, 128].map(|length| frame_in(length, length + 1)));
    lines
}

/// The lengths of which there is room for many questions; the wide set asks about all.
fn shorter_runs() -> impl Iterator<Item = usize> {
    RUNS.into_iter().filter(|&length| length <= 130)
}

/// Runs of stray bytes before a frame, and of bytes that are skipped; and frames that are broken off
/// behind a run by the next.
fn other_runs() -> Vec<Bytes> {
    let mut lines = Vec::new();
    for length in shorter_runs() {
        let run = plain(length);
        lines.push(frame_question([OUTSIDE, 0, 0], &[&run[..], &[BEGIN, BEGIN]].concat(), 0));
        lines.push(frame_question([SKIPPING, 0, 0], &[&run[..], b"\x1Cxx"].concat(), 0));
    }
    for length in [31, 32, 33, 64, 65] {
        let broken = [&plain(length)[..], &[BEGIN, b'A']].concat();
        lines.push(frame_question([INSIDE, 1, 0], &broken, length + 1));
    }
    lines
}

/// Messages of bytes that are nearly telling, and of CRs alone: each of them a frame.
fn near_bytes() -> Vec<Bytes> {
    let mut messages = vec![NEAR.to_vec(), vec![CR; 4]];
    messages.extend(NEAR.iter().map(|&byte| vec![byte; 33]));
    messages.iter().map(|message| frames_question(34, &[&frame_of(message)])).collect()
}

/// Streams in which each rule shows, with the room for it. Some are left open, in each of the modes.
pub const STREAMS: [(usize, &[u8]); 11] = [
    (2, b"x\x0BA\x1C\r\ry"),
    (2, b"\x0BA\x1CBC\x0B\x1C\r"),
    (2, b"\x0BABC\x1Cxy\x0B"),
    (2, b"\x0BABC\x1C\x0BZ\x1C\r"),
    (1, b"\x0BA\x1C\x0BB\x1C\r"),
    (1, b"\x0BA\x1C\x1C\r\x0BB\x1C"),
    (2, b"\x0B\x0BA\x0B\x1C\r\x1C"),
    (0, b"\x0B\x1C\r\x0BA\x0B\x1C\r"),
    (1, b"\x0BA\x1C\r\x0BBCD"),
    (2, b"\x1C\x0BABC\r\x1C"),
    (3, b"\x0BAB\x1C\r\x0BC\x1C\r"),
];

/// Each stream in two pieces, of which one may be empty, in three, and byte by byte with empty pieces
/// between: "answers for the same bytes cut otherwise are the same line".
fn cut_streams() -> Vec<Bytes> {
    let mut lines = Vec::new();
    for (room, stream) in STREAMS {
        for first in 0..=stream.len() {
            let (front, rest) = stream.split_at(first);
            lines.push(frames_question(room, &[front, rest]));
            if first > 0 {
                for second in 1..rest.len() {
                    lines.push(frames_question(room, &[front, &rest[..second], &rest[second..]]));
                }
            }
        }
        let bytes: Vec<&[u8]> = stream.chunks(1).flat_map(|byte| [b"", byte]).collect();
        lines.push(frames_question(room, &bytes));
    }
    lines
}
