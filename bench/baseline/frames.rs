//! Messages off the wire: frames are read from pieces of any size. Runs of bytes that do the same are
//! found at once, and those of a frame copied in one piece.

use crate::bytes::CR;
use crate::reading::LONGEST_MESSAGE;
use std::slice;

/// The byte that begins a frame, and the byte that, with a CR behind it, ends one.
const BEGIN: u8 = 0x0B;
const END: u8 = 0x1C;

const OUTSIDE: u64 = 0;
const INSIDE: u64 = 1;
const INSIDE_BEHIND_END: u64 = 2;
const SKIPPING: u64 = 3;
const SKIPPING_BEHIND_END: u64 = 4;

const MOST_COUNTED: u64 = u32::MAX as u64;

/// Where a line stands between two pieces: a mode, the bytes gathered of a frame, and the count of
/// those dropped outside frames. All zeros is the start.
#[derive(Clone, Copy, Default)]
pub struct FrameState {
    pub mode: u64,
    pub held: usize,
    pub count: u64,
}

/// What the reader stopped at, by the numbers of the library for C.
#[derive(Clone, Copy)]
pub enum Stop {
    More,
    Frame,
    Drop,
    Refused,
}

/// What goes back: `used` bytes of the piece are done with, and a frame of so many bytes is the front
/// of the buffer.
#[derive(Clone, Copy)]
pub struct Fed {
    pub number: u32,
    pub stop: Stop,
    pub used: usize,
    pub length: usize,
    pub state: FrameState,
}

/// Reads a piece up to the end of a frame, to where one is dropped, or to its own end.
#[inline]
pub fn feed(mut state: FrameState, piece: &[u8], buffer: &mut [u8]) -> Fed {
    let limit = buffer.len().min(LONGEST_MESSAGE);
    if !can_be_reached(state, limit) {
        return Fed { number: 14, stop: Stop::Refused, used: 0, length: 0, state };
    }
    let mut rest = piece;
    loop {
        let run = match state.mode {
            OUTSIDE => pass_outside(&mut state, rest),
            INSIDE => gather(&mut state, rest, &mut buffer[..limit]),
            SKIPPING => first_mark(rest),
            _ => 0,
        };
        let Some((&byte, behind)) = rest[run..].split_first() else {
            return Fed { number: 0, stop: Stop::More, used: piece.len(), length: 0, state };
        };
        rest = behind;
        let length = state.held;
        if let Some((number, stop)) = take(&mut state, byte) {
            let length = if number == 0 { length } else { 0 };
            return Fed { number, stop, used: piece.len() - rest.len(), length, state };
        }
    }
}

/// Whether some line over a buffer of that limit leads to the state.
fn can_be_reached(state: FrameState, limit: usize) -> bool {
    let most_held = match state.mode {
        OUTSIDE | SKIPPING | SKIPPING_BEHIND_END => 0,
        INSIDE | INSIDE_BEHIND_END => limit,
        _ => return false,
    };
    state.held <= most_held && state.count <= MOST_COUNTED
}

/// Counts the bytes up to the next frame.
#[inline(always)]
fn pass_outside(state: &mut FrameState, rest: &[u8]) -> usize {
    let run = first_with(rest, |block| has(block, BEGIN));
    state.count = (state.count + run as u64).min(MOST_COUNTED);
    run
}

/// Copies the bytes up to the next mark, as many as there is room for.
#[inline(always)]
fn gather(state: &mut FrameState, rest: &[u8], buffer: &mut [u8]) -> usize {
    let room = &mut buffer[state.held..];
    let run = first_mark(&rest[..rest.len().min(room.len())]);
    room[..run].copy_from_slice(&rest[..run]);
    state.held += run;
    run
}

/// Takes the byte behind a run, and says where the reader stops. A byte behind what was gathered that
/// is no mark had no room.
#[inline(always)]
fn take(state: &mut FrameState, byte: u8) -> Option<(u32, Stop)> {
    const BROKEN: Option<(u32, Stop)> = Some((40, Stop::Drop));
    let (mode, told) = match (state.mode, byte) {
        (INSIDE, END) => {
            state.mode = INSIDE_BEHIND_END;
            return None;
        }
        (INSIDE | INSIDE_BEHIND_END, BEGIN) => (INSIDE, BROKEN),
        (INSIDE, _) => (SKIPPING, Some((41, Stop::Drop))),
        (INSIDE_BEHIND_END, CR) => (OUTSIDE, Some((0, Stop::Frame))),
        (INSIDE_BEHIND_END, _) => (OUTSIDE, BROKEN),
        (_, BEGIN) => (INSIDE, None),
        (SKIPPING, _) => (SKIPPING_BEHIND_END, None),
        _ => (OUTSIDE, None),
    };
    state.mode = mode;
    state.held = 0;
    told
}

/// The place of the first byte that begins or ends a frame, or the length.
#[inline(always)]
fn first_mark(bytes: &[u8]) -> usize {
    // One pass after the other: for both tests in one pass the compiler makes many times the code.
    first_with(bytes, |block| has(block, BEGIN) | has(block, END))
}

#[inline(always)]
fn has(block: &[u8], wanted: u8) -> bool {
    block.iter().fold(false, |found, &byte| found | (byte == wanted))
}

/// The place of the first byte for which the test holds, or the length: by large blocks, then by small
/// ones. The last small one overlaps what was tested, so that bytes are looked at one by one only where
/// one is there to be found, or where there are too few for a block.
#[inline(always)]
fn first_with(bytes: &[u8], test: impl Fn(&[u8]) -> bool) -> usize {
    const LARGE: usize = 128;
    const SMALL: usize = 32;
    let mut start = 0;
    for block in bytes.chunks_exact(LARGE) {
        if test(block) {
            break;
        }
        start += LARGE;
    }
    for block in bytes[start..].chunks_exact(SMALL) {
        if test(block) {
            break;
        }
        start += SMALL;
    }
    let last = bytes.last_chunk::<SMALL>();
    if start + SMALL > bytes.len() && last.is_some_and(|block| !test(block)) {
        return bytes.len();
    }
    let rest = &bytes[start..];
    start + rest.iter().position(|byte| test(slice::from_ref(byte))).unwrap_or(rest.len())
}
