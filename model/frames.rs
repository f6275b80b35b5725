//! Messages off the wire: the frame reader of W1 in document 02, byte by byte. "The clinic link sends
//! MLLP frames: 0x0B, the message, 0x1C, 0x0D. We get them in pieces of any size."

use crate::reading::{CR, LONGEST_MESSAGE};

/// The byte that begins a frame, and the byte that, with a CR behind it, ends one.
pub const BEGIN: u8 = 0x0B;
pub const END: u8 = 0x1C;

/// The five modes of W1's ruling 2.
pub const OUTSIDE: u64 = 0;
pub const INSIDE: u64 = 1;
pub const INSIDE_BEHIND_END: u64 = 2;
pub const SKIPPING: u64 = 3;
pub const SKIPPING_BEHIND_END: u64 = 4;

/// "Bytes outside a frame are dropped and counted, to 2^32-1 at most."
pub const MOST_COUNTED: u64 = 0xFFFF_FFFF;

/// What is "handed in with each piece and handed back": "a mode, the number of bytes held, and the
/// count of bytes dropped outside". "All zeros is the start." (W1's ruling 2)
#[derive(Clone, Copy, Default)]
pub struct FrameState {
    pub mode: u64,
    pub held: u64,
    pub count: u64,
}

/// Why the reader stopped where it did.
#[derive(Clone, Copy)]
pub enum Stop {
    /// The piece is used up.
    More,
    /// A frame ended, so many bytes long; they are the front of the buffer.
    Frame(usize),
    /// A frame was dropped: 40 for a broken one, 41 for one that is too long.
    Drop(u32),
    /// 14: "a state that no run with that buffer's length could have reached".
    Refused,
}

/// What a call gives back: why it stopped, how many bytes of the piece it took, and the state.
pub struct Fed {
    pub stop: Stop,
    pub used: usize,
    pub state: FrameState,
}

/// What came off the wire, whichever call it was that stopped there.
pub enum Event {
    Frame(Vec<u8>),
    Drop(u32),
}

/// One call: the piece up to the first stop, "filling a lent buffer and stopping after each frame and
/// each dropped frame".
pub fn feed(mut state: FrameState, piece: &[u8], buffer: &mut [u8]) -> Fed {
    // "Anything else is 14, before the piece is looked at, also for an empty piece", and "14 changes
    // nothing" (W1's rulings 2 and 3).
    if !can_be_reached(state, buffer.len()) {
        return Fed { stop: Stop::Refused, used: 0, state };
    }
    for (place, &byte) in piece.iter().enumerate() {
        if let Some(stop) = take(&mut state, byte, buffer) {
            return Fed { stop, used: place + 1, state };
        }
    }
    Fed { stop: Stop::More, used: piece.len(), state }
}

/// All the pieces in order from the start, "calling again with the rest of a piece after each stop".
pub fn feed_all(pieces: &[Vec<u8>], buffer: &mut [u8]) -> (Vec<Event>, FrameState) {
    let mut events = Vec::new();
    let mut state = FrameState::default();
    for piece in pieces {
        let mut rest = &piece[..];
        while !rest.is_empty() {
            let fed = feed(state, rest, buffer);
            match fed.stop {
                Stop::More => {}
                Stop::Frame(length) => events.push(Event::Frame(buffer[..length].to_vec())),
                Stop::Drop(number) => events.push(Event::Drop(number)),
                Stop::Refused => unreachable!("the reader handed this state back itself"),
            }
            state = fed.state;
            rest = &rest[fed.used..];
        }
    }
    (events, state)
}

/// "The limit is document 01's or the buffer's length, the smaller."
fn limit(room: usize) -> usize {
    room.min(LONGEST_MESSAGE)
}

/// "Exactly these can be reached: any count 0 to 2^32-1 with mode 0, 3 or 4 and 0 held, or mode 1 or
/// 2 and 0 to L held." (W1's ruling 2)
fn can_be_reached(state: FrameState, room: usize) -> bool {
    let most_held = match state.mode {
        OUTSIDE | SKIPPING | SKIPPING_BEHIND_END => 0,
        INSIDE | INSIDE_BEHIND_END => limit(room) as u64,
        _ => return false,
    };
    state.held <= most_held && state.count <= MOST_COUNTED
}

/// Takes one byte, and says whether the reader stops behind it.
fn take(state: &mut FrameState, byte: u8, buffer: &mut [u8]) -> Option<Stop> {
    match state.mode {
        OUTSIDE => take_outside(state, byte),
        INSIDE => take_inside(state, byte, buffer),
        INSIDE_BEHIND_END => take_inside_behind_end(state, byte),
        SKIPPING => take_skipping(state, byte),
        _ => take_skipping_behind_end(state, byte),
    }
}

/// "Bytes outside a frame are dropped and counted", 1C and 0D "like any other" (W1's ruling 9).
fn take_outside(state: &mut FrameState, byte: u8) -> Option<Stop> {
    if byte == BEGIN {
        move_to(state, INSIDE);
    } else if state.count < MOST_COUNTED {
        state.count += 1;
    }
    None
}

/// "0x0B inside a frame drops what was gathered and starts again": 40, "also with nothing gathered"
/// (W1's ruling 1). "A frame is over the limit at the first gathered byte past it: 1C and 0B with L
/// held are none." (W1's ruling 8)
fn take_inside(state: &mut FrameState, byte: u8, buffer: &mut [u8]) -> Option<Stop> {
    if byte == BEGIN {
        move_to(state, INSIDE);
        return Some(Stop::Drop(40));
    }
    if byte == END {
        state.mode = INSIDE_BEHIND_END;
        return None;
    }
    let held = state.held as usize;
    if held == limit(buffer.len()) {
        move_to(state, SKIPPING);
        return Some(Stop::Drop(41));
    }
    buffer[held] = byte;
    state.held += 1;
    None
}

/// "0x1C followed by anything but 0x0D drops the frame and that byte, uncounted; a 0x0B there starts
/// the next." A second 1C is "anything but 0D" (W1's ruling 9).
fn take_inside_behind_end(state: &mut FrameState, byte: u8) -> Option<Stop> {
    if byte == CR {
        let length = state.held as usize;
        move_to(state, OUTSIDE);
        return Some(Stop::Frame(length));
    }
    move_to(state, if byte == BEGIN { INSIDE } else { OUTSIDE });
    Some(Stop::Drop(40))
}

/// A frame that is too long is "skipped to the next 0x0B or through 0x1C and another byte". "The frame
/// was reported once" already (W1's ruling 7), and its bytes are not counted (W1's ruling 6).
fn take_skipping(state: &mut FrameState, byte: u8) -> Option<Stop> {
    match byte {
        BEGIN => move_to(state, INSIDE),
        END => move_to(state, SKIPPING_BEHIND_END),
        _ => {}
    }
    None
}

/// "`1C 0B` while skipping: the 0B starts a frame, as it does behind a broken one." (W1's ruling 7)
fn take_skipping_behind_end(state: &mut FrameState, byte: u8) -> Option<Stop> {
    move_to(state, if byte == BEGIN { INSIDE } else { OUTSIDE });
    None
}

/// Another mode, with nothing held; the count stays.
fn move_to(state: &mut FrameState, mode: u64) {
    state.mode = mode;
    state.held = 0;
}
