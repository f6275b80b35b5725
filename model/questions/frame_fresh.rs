//! Fresh questions of the verbs `frame` and `frames`: random streams made of frames that are whole,
//! broken or too long, and of what can stand between them, cut at random; and random states, mostly
//! such as can be reached.

use super::frame_stored::{NEAR, RUNS, TELLING};
use super::{frame_question, frames_question, Bytes};
use crate::ask::MOST_ROOM;
use crate::chance::Chance;
use crate::frames::{BEGIN, END, INSIDE, INSIDE_BEHIND_END, MOST_COUNTED};
use crate::reading::CR;

/// A question of `frame`: one call, with a state handed in.
pub fn one_call(chance: &mut Chance) -> Bytes {
    let room = random_room(chance);
    let mut state = known_state(chance, room);
    if chance.one_in(5) {
        make_foreign(chance, &mut state, room);
    }
    let piece = match chance.below(8) {
        0 => Vec::new(),
        1..=4 => stream_from_inside(chance, room),
        _ => random_stream(chance, room),
    };
    frame_question(state, &piece, room)
}

/// A question of `frames`: a whole stream in pieces.
pub fn all_pieces(chance: &mut Chance) -> Bytes {
    if chance.one_in(3000) {
        return of_a_long_frame(chance);
    }
    let room = random_room(chance);
    let stream = random_stream(chance, room);
    let pieces = random_pieces(chance, &stream);
    frames_question(room, &pieces)
}

/// A frame about as long as the largest buffer, by packets, and a buffer about as large.
fn of_a_long_frame(chance: &mut Chance) -> Bytes {
    let largest = MOST_ROOM as usize;
    let length = chance.between(largest - 2, largest + 2);
    let mut stream = vec![BEGIN];
    stream.resize(length + 1, chance.pick(b"A\r\xFF"));
    stream.extend([END, CR]);
    stream.extend(random_stream(chance, 2));
    let room = largest - chance.pick(&[0, 0, 1, 2]);
    let packet = chance.pick(&[536, 1_460, 4_096, 32_769, usize::MAX]);
    frames_question(room, &stream.chunks(packet).collect::<Vec<_>>())
}

/// Mostly a few bytes; or about as long as a block, or any up to some blocks.
fn random_room(chance: &mut Chance) -> usize {
    match chance.below(12) {
        0..=6 => chance.below(6),
        7..=8 => chance.below(40),
        9..=10 => chance.pick(&RUNS) + chance.below(3) - 1,
        _ => chance.below(320),
    }
}

/// Up to seven parts, whatever they come to together.
fn random_stream(chance: &mut Chance, room: usize) -> Bytes {
    let parts = chance.below(8);
    (0..parts).flat_map(|_| part(chance, room)).collect()
}

/// What stands behind the beginning of a frame, and more. Some of the room may be filled already.
fn stream_from_inside(chance: &mut Chance, room: usize) -> Bytes {
    let mut stream = chance.pick(&[&b""[..], b"", b"\r", b"\r", b"\r", b"\x0B", b"\x1C"]).to_vec();
    if !chance.one_in(3) {
        let left = chance.below(room + 1);
        stream.extend(body(chance, left));
        stream.extend(ending(chance));
    }
    stream.extend(random_stream(chance, room));
    stream
}

fn part(chance: &mut Chance, room: usize) -> Bytes {
    match chance.below(12) {
        0..=1 => stray_bytes(chance),
        2..=5 => [&[BEGIN], &body(chance, room)[..], &[END, CR]].concat(),
        6..=9 => [&[BEGIN], &body(chance, room)[..], &ending(chance)].concat(),
        _ => mixture(chance),
    }
}

/// Mostly few, seldom some blocks of them.
fn stray_bytes(chance: &mut Chance) -> Bytes {
    let length = if chance.one_in(8) { chance.below(140) } else { chance.below(5) };
    (0..length).map(|_| chance.pick(b"xyz \r\x1C\0\xFF\x0A\x0C")).collect()
}

/// How a frame ends, well or not: by a CR that comes, comes late or doesn't, by another byte, by the
/// beginning of the next.
fn ending(chance: &mut Chance) -> Bytes {
    let endings: [&[u8]; 16] = [
        b"\x1C\r", b"\x1C\r", b"\x1C\r", b"\x1C\r", b"\x1C\r\r", b"", b"\r", b"\x1C", b"\x1CA",
        b"\x1C\n", b"\x1C\x0B", b"\x1C\x0B\x0B", b"\x1C\x1C", b"\x1C\x1C\r", b"\x0B",
        b"\x0B\x1C\r",
    ];
    chance.pick(&endings).to_vec()
}

/// Bytes without a plan, of which most have a meaning.
fn mixture(chance: &mut Chance) -> Bytes {
    let length = chance.below(9);
    (0..length)
        .map(|_| if chance.one_in(6) { chance.pick(&NEAR) } else { chance.pick(&TELLING) })
        .collect()
}

/// What a frame holds: as many bytes as there is room for, or about so many, or any number; seldom
/// with one among them that ends the frame.
fn body(chance: &mut Chance, room: usize) -> Bytes {
    let length = match chance.below(10) {
        0 => 0,
        1..=3 => room,
        4 => room.saturating_sub(1),
        5 => room + 1,
        6 => room + chance.below(5),
        7 => chance.below(room + 1),
        8 => chance.below(6),
        _ if chance.one_in(2) => chance.pick(&RUNS),
        _ => chance.below(301),
    };
    let kind = chance.below(4);
    let mut body: Bytes = (0..length).map(|_| body_byte(chance, kind)).collect();
    if chance.one_in(10) && !body.is_empty() {
        let place = chance.below(body.len());
        body[place] = chance.pick(&[BEGIN, END]);
    }
    body
}

/// A byte that stands for itself in a frame: a letter, a byte near those that don't, or any other.
fn body_byte(chance: &mut Chance, kind: usize) -> u8 {
    match kind {
        0 => chance.pick(&NEAR),
        1 => match chance.byte() {
            BEGIN | END => CR,
            byte => byte,
        },
        _ => chance.pick(b"MSHPIDOBX|^~\\&0123456789 \r"),
    }
}

/// The stream whole, byte by byte, or cut at some places, also twice at the same.
fn random_pieces<'stream>(chance: &mut Chance, stream: &'stream [u8]) -> Vec<&'stream [u8]> {
    match chance.below(6) {
        0 => return vec![stream],
        1 if (1..40).contains(&stream.len()) => return stream.chunks(1).collect(),
        2 if !stream.is_empty() => return stream.chunks(chance.between(1, 70)).collect(),
        _ => {}
    }
    let cuts = chance.between(1, 8);
    let mut places: Vec<usize> = (0..cuts).map(|_| chance.below(stream.len() + 1)).collect();
    places.push(stream.len());
    places.sort();
    let mut start = 0;
    let mut pieces = Vec::new();
    for place in places {
        pieces.push(&stream[start..place]);
        start = place;
    }
    pieces
}

/// A state that can be reached with this room.
fn known_state(chance: &mut Chance, room: usize) -> [u64; 3] {
    let mode = chance.pick(&[0, 1, 1, 2, 2, 3, 4]);
    let held = match mode {
        INSIDE | INSIDE_BEHIND_END => match chance.below(4) {
            0 => 0,
            1 => room,
            2 => room.saturating_sub(1),
            _ => chance.below(room + 1),
        },
        _ => 0,
    };
    let count = match chance.below(4) {
        0 => 0,
        1 => chance.below(1000) as u64,
        2 => MOST_COUNTED - chance.below(50) as u64,
        _ => chance.below(MOST_COUNTED as usize + 1) as u64,
    };
    [mode, held as u64, count]
}

/// Another number at one of the three places or at two, which mostly makes a state that can't be
/// reached: one too many, one that is right but for its higher bits, or any at all.
fn make_foreign(chance: &mut Chance, state: &mut [u64; 3], room: usize) {
    for _ in 0..chance.between(1, 2) {
        let place = chance.below(state.len());
        let one_too_many = [5, room as u64 + 1, MOST_COUNTED + 1][place];
        state[place] = match chance.below(6) {
            0..=1 => one_too_many,
            2 => one_too_many + chance.below(6) as u64,
            3 => state[place].wrapping_add(1 << chance.pick(&[8, 16, 32, 33, 63])),
            4 => u64::MAX - chance.below(3) as u64,
            _ => chance.below(usize::MAX) as u64,
        };
    }
}
