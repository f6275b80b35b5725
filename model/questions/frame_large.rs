//! The large set of the verbs `frame` and `frames`: a message as long as may be is a frame, and one
//! byte more is none, however large the buffer is and however the line is cut.

use super::frame_wide::{two_frames, PACKET};
use super::{frame_question, frames_question, Bytes};
use crate::frames::{INSIDE, INSIDE_BEHIND_END};
use crate::reading::LONGEST_MESSAGE;

pub fn large() -> Vec<Bytes> {
    [frames(), states()].concat()
}

/// Each of them with a short frame behind it, which comes also where the first is dropped.
fn frames() -> Vec<Bytes> {
    let longest = two_frames(LONGEST_MESSAGE);
    let too_long = two_frames(LONGEST_MESSAGE + 1);
    let pieces = |stream, length| <[u8]>::chunks(stream, length).collect::<Vec<_>>();
    vec![
        frame_question([0, 0, 0], &longest, LONGEST_MESSAGE),
        frame_question([0, 0, 0], &too_long, LONGEST_MESSAGE + 1),
        frames_question(LONGEST_MESSAGE + 1, &pieces(&longest, PACKET)),
        frames_question(LONGEST_MESSAGE + 1, &pieces(&too_long, 4_096)),
        frames_question(LONGEST_MESSAGE - 1, &pieces(&longest, 65_536)),
    ]
}

/// As many bytes held as may be, one less and one more.
fn states() -> Vec<Bytes> {
    let most = LONGEST_MESSAGE as u64;
    vec![
        frame_question([INSIDE, most - 1, 0], b"A\x1C\r", LONGEST_MESSAGE),
        frame_question([INSIDE, most, 0], b"A\x1C\r", LONGEST_MESSAGE + 1),
        frame_question([INSIDE_BEHIND_END, most + 1, 0], b"\r", LONGEST_MESSAGE + 1),
    ]
}
