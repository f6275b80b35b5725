//! The wide set of the verbs `frame` and `frames`: every stream of up to seven telling bytes, every
//! way to cut the telling streams, a larger grid of states, every byte in every mode, runs of every
//! length up to some blocks, and frames, states and lines about as large as the program can lend a
//! buffer for.

use super::frame_stored::{frame_of, plain, NEAR, STATES, STREAMS, TELLING, TELLING_PIECE};
use super::{frame_question, frames_question, texts, Bytes};
use crate::ask::{LONGEST_LINE, MOST_ROOM};
use crate::frames::{BEGIN, END, INSIDE, INSIDE_BEHIND_END, MOST_COUNTED, OUTSIDE, SKIPPING};
use crate::reading::CR;

/// What a packet of the usual network carries.
pub const PACKET: usize = 1_460;

/// The largest buffer, which is the limit of a frame there: a message's is larger.
const LARGEST: usize = MOST_ROOM as usize;

/// The longest frame before W6, in the largest buffer too.
const LONGEST_BEFORE: usize = 32_768;

pub fn wide() -> Vec<Bytes> {
    let questions = [
        streams(),
        every_cut(),
        states(),
        empty_pieces(),
        every_byte(),
        pairs_in_each_mode(),
        frames_of_runs(),
        other_runs(),
        pairs_behind_runs(),
        cut_blocks(),
        runs_of_wide_blocks(),
        frames_of_the_largest_buffer(),
        long_lines(),
    ];
    questions.concat()
}

/// What is as large as the largest buffer.
pub fn limits() -> Vec<Bytes> {
    [whole_frames_of_the_largest_buffer(), states_of_the_largest_buffer()].concat()
}

/// Those that are shorter are stored. With a room of 3 six bytes are enough: they are what a frame of 3
/// has.
fn streams() -> Vec<Bytes> {
    let mut lines = Vec::new();
    for (length, rooms) in [(4, 1..=2), (5, 0..=3), (6, 0..=3), (7, 0..=2)] {
        let streams = texts(&TELLING, length);
        for room in rooms {
            lines.extend(streams.iter().map(|stream| frames_question(room, &[stream])));
        }
    }
    lines
}

/// Each telling stream cut at every set of places, so that every piece has a byte at least.
fn every_cut() -> Vec<Bytes> {
    let mut lines = Vec::new();
    for (room, stream) in STREAMS {
        for cuts in 0..1 << (stream.len() - 1) {
            lines.push(frames_question(room, &pieces_at(stream, cuts)));
        }
    }
    lines
}

/// The stream cut behind each byte whose bit is set.
fn pieces_at(stream: &[u8], cuts: u32) -> Vec<&[u8]> {
    let mut pieces = Vec::new();
    let mut start = 0;
    for place in 1..stream.len() {
        if cuts & (1 << (place - 1)) != 0 {
            pieces.push(&stream[start..place]);
            start = place;
        }
    }
    pieces.push(&stream[start..]);
    pieces
}

/// Modes, numbers of bytes held and counts that can be, are one too many, or come out as one that can
/// be where they are cut to fewer bits.
const MODES: [u64; 14] =
    [0, 1, 2, 3, 4, 5, 255, 256, 257, 258, 260, 0x1_0000, 0x1_0000_0001, u64::MAX];
const HELD: [u64; 12] =
    [0, 1, 2, 3, 4, 255, 256, 257, 0x1_0000, 0x1_0000_0000, 0x1_0000_0001, u64::MAX];
const COUNTS: [u64; 9] = [
    0,
    1,
    0x8000_0000,
    MOST_COUNTED - 1,
    MOST_COUNTED,
    MOST_COUNTED + 1,
    MOST_COUNTED + 2,
    1 << 63,
    u64::MAX,
];

fn states() -> Vec<Bytes> {
    let mut lines = Vec::new();
    for mode in MODES {
        for held in HELD {
            for count in COUNTS {
                for room in [0, 1, 3] {
                    lines.push(frame_question([mode, held, count], &TELLING_PIECE, room));
                }
            }
        }
    }
    // Rooms in which more can be held than a byte tells.
    for mode in 0..=4 {
        for held in HELD {
            for room in [2, 254, 255, 256, 257] {
                lines.push(frame_question([mode, held, 7], &TELLING_PIECE, room));
            }
        }
    }
    lines
}

fn empty_pieces() -> Vec<Bytes> {
    let mut lines = Vec::new();
    for mode in MODES {
        for held in [0, 1, 2, u64::MAX] {
            for count in COUNTS {
                lines.push(frame_question([mode, held, count], b"", 1));
            }
        }
    }
    lines
}

/// Every byte in each mode, with a byte behind it that shows the mode which it led to.
fn every_byte() -> Vec<Bytes> {
    let mut lines = Vec::new();
    for state in STATES {
        for byte in 0..=0xFF {
            lines.push(frame_question(state, &[byte, CR], 1));
        }
    }
    lines
}

/// Every two telling bytes, and those near them, in each mode.
fn pairs_in_each_mode() -> Vec<Bytes> {
    let pairs = texts(&[&TELLING[..], &NEAR].concat(), 2);
    STATES
        .iter()
        .flat_map(|&state| pairs.iter().map(move |pair| frame_question(state, pair, 1)))
        .collect()
}

/// Every length up to some blocks, and about as many as a byte can count.
fn run_lengths() -> impl Iterator<Item = usize> {
    (0..=140).chain(250..=260)
}

/// Frames of these lengths with one byte of room too few, with just enough and with one too many, and
/// behind some bytes that were gathered before.
fn frames_of_runs() -> Vec<Bytes> {
    let mut lines = Vec::new();
    for length in run_lengths() {
        let frame = frame_of(&plain(length));
        for room in length.saturating_sub(1)..=length + 1 {
            lines.push(frame_question([0, 0, 0], &frame, room));
        }
        for before in [1, 5, 31, 32, 33] {
            let room = length + before;
            lines.push(frame_question([INSIDE, before as u64, 0], &frame[1..], room));
        }
    }
    lines
}

/// Runs of bytes that are counted, that are skipped, and in which a frame is over the limit at each
/// place.
fn other_runs() -> Vec<Bytes> {
    let mut lines = Vec::new();
    for length in run_lengths() {
        let run = plain(length);
        lines.push(frame_question([OUTSIDE, 0, 0], &[&run[..], &[BEGIN, BEGIN]].concat(), 0));
        lines.push(frame_question([OUTSIDE, 0, MOST_COUNTED - 64], &run, 0));
        lines.push(frame_question([SKIPPING, 0, 0], &[&run[..], &[BEGIN, BEGIN]].concat(), 0));
        lines.push(frame_question([SKIPPING, 0, 0], &[&run[..], b"\x1Cxx"].concat(), 0));
    }
    let frame = frame_of(&plain(200));
    lines.extend((0..=201).map(|room| frames_question(room, &[&frame])));
    lines
}

/// Two bytes, of which one is telling, behind a run of each length, and a run behind them.
fn pairs_behind_runs() -> Vec<Bytes> {
    let pairs = [b"\x1C\r", b"\x1C\x0B", b"\x1C\x1C", b"\x1CA", b"\x0BA", b"\x0A\x0B", b"\x1D\x1C"];
    let mut lines = Vec::new();
    for length in 0..=66 {
        for pair in pairs {
            let stream = [&[BEGIN], &plain(length)[..], pair, &plain(34)].concat();
            lines.push(frames_question(length + 2, &[&stream]));
        }
    }
    lines
}

/// A frame of some blocks, between others, cut at every place, and into pieces of each length.
fn cut_blocks() -> Vec<Bytes> {
    let long = frame_of(&plain(130));
    let stream = [b"xyz", &frame_of(b"")[..], &long, b"z", &frame_of(b"B")].concat();
    let mut lines = Vec::new();
    for place in 0..=stream.len() {
        lines.push(frames_question(130, &[&stream[..place], &stream[place..]]));
    }
    for length in 1..=stream.len() {
        let pieces: Vec<&[u8]> = stream.chunks(length).collect();
        lines.push(frames_question(130, &pieces));
        lines.push(frames_question(129, &pieces));
    }
    lines
}

/// Runs about as long as one, two and three wide blocks, plain and with a byte near the telling ones at
/// the front, in the middle or at the end, gathered, skipped, and broken off by each telling byte.
fn runs_of_wide_blocks() -> Vec<Bytes> {
    let mut lines = Vec::new();
    for length in (254..=258).chain(286..=290).chain(510..=514).chain(542..=546).chain(766..=770) {
        let mut runs = vec![plain(length)];
        for place in [0, length / 2, length - 1] {
            let mut run = plain(length);
            run[place] = NEAR[(length + place) % NEAR.len()];
            runs.push(run);
        }
        for run in runs {
            lines.push(frame_question([OUTSIDE, 0, 0], &frame_of(&run), length));
            lines.push(frame_question([INSIDE, 0, 0], &run, length));
            lines.push(frame_question(
                [INSIDE, 0, 0],
                &[&run[..], &[BEGIN, END]].concat(),
                length + 1,
            ));
            lines.push(frame_question([SKIPPING, 0, 0], &[&run[..], b"\x1Cxx"].concat(), 0));
        }
    }
    lines
}

/// A frame of this length, and a short one behind it.
pub fn two_frames(length: usize) -> Bytes {
    [frame_of(&plain(length)), frame_of(b"Z")].concat()
}

fn frames_of_the_largest_buffer() -> Vec<Bytes> {
    let mut lines = Vec::new();
    for length in [LONGEST_BEFORE + 1, LARGEST - 1, LARGEST, LARGEST + 1] {
        let stream = two_frames(length);
        let packets: Vec<&[u8]> = stream.chunks(PACKET).collect();
        for room in [LARGEST - 1, LARGEST] {
            lines.push(frames_question(room, &packets));
        }
    }
    lines
}

/// What fills the largest buffer is a frame, and one byte more is none, whole and by packets.
fn whole_frames_of_the_largest_buffer() -> Vec<Bytes> {
    let longest = two_frames(LARGEST);
    let too_long = two_frames(LARGEST + 1);
    let packets: Vec<&[u8]> = longest.chunks(PACKET).collect();
    let packets_too_long: Vec<&[u8]> = too_long.chunks(PACKET).collect();
    vec![
        frame_question([0, 0, 0], &longest, LARGEST - 1),
        frame_question([0, 0, 0], &longest, LARGEST),
        frame_question([0, 0, 0], &too_long, LARGEST),
        frames_question(LARGEST, &packets),
        frames_question(LARGEST, &packets_too_long),
    ]
}

/// As many bytes held as may be, one less and one more; and more than was the most before W6.
fn states_of_the_largest_buffer() -> Vec<Bytes> {
    let mut lines = Vec::new();
    for room in [LARGEST - 1, LARGEST] {
        let before = [LONGEST_BEFORE, LONGEST_BEFORE + 1, 40_000];
        for held in before.into_iter().chain(LARGEST - 2..=LARGEST + 1) {
            lines.push(frame_question([INSIDE, held as u64, 0], b"AA\x1C\r", room));
            lines.push(frame_question([INSIDE_BEHIND_END, held as u64, 0], b"\r", room));
        }
    }
    lines.push(frame_question([INSIDE, MOST_ROOM, 0], b"\x1C\r", LARGEST));
    lines.push(frame_question([OUTSIDE, 1, 0], b"\x1C\r", LARGEST));
    lines
}

/// Lines as long as may be, or just too long: of one piece, of as many events as can be, of as many
/// pieces as can be, empty or of one byte.
fn long_lines() -> Vec<Bytes> {
    let mut lines = Vec::new();
    for bytes in LONGEST_LINE / 2 - 7..=LONGEST_LINE / 2 - 4 {
        lines.push(frame_question([0, 0, 0], &plain(bytes), 1));
        lines.push(frames_question(1, &[&plain(bytes)]));
    }
    let most = LONGEST_LINE / 2 - 7;
    lines.push(frames_question(LARGEST, &[&vec![BEGIN; most]]));
    lines.push(frames_question(0, &[&[BEGIN, b'A'].repeat(most / 2)]));
    lines.push(frames_question(1, &[&[BEGIN, END, CR].repeat(most / 3)]));
    for pieces in [LONGEST_LINE / 2 - 4, LONGEST_LINE / 2 - 3] {
        lines.push(frames_question(1, &vec![&b""[..]; pieces]));
    }
    let stream: Bytes = frame_of(b"A").into_iter().cycle().take(LONGEST_LINE / 3 - 3).collect();
    lines.push(frames_question(2, &stream.chunks(1).collect::<Vec<_>>()));
    lines
}
