//! What the wide set asks of all lookups: messages of as many segments as may be, and of one more.

use super::{lookup_question, message, Bytes};
use crate::reading::MOST_SEGMENTS;

/// The last segment that may be, the one behind it, and 8 for an element that would be found.
pub fn limits() -> Vec<Bytes> {
    let mut segments = vec![r"MSH|^~\&"];
    segments.resize(MOST_SEGMENTS - 1, "ZZZ");
    segments.push("ZZZ|a");
    let all_segments = message(&segments);
    let last = MOST_SEGMENTS as u64 - 1;
    let mut lines: Vec<Bytes> = [last, last + 1]
        .map(|segment| lookup_question("find", &all_segments, [segment, 1, 0, 0, 0]))
        .to_vec();
    let mut too_many = vec![r"MSH|^~\&|5"];
    too_many.resize(MOST_SEGMENTS + 1, "ZZZ");
    for verb in ["find", "nm", "ts"] {
        lines.push(lookup_question(verb, &message(&too_many), [0, 3, 0, 0, 0]));
    }
    lines
}
