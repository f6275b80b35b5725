//! The large set of all lookups: what stands last in messages as long as may be, and values as
//! long.

use super::error_places::result_with;
use super::judge_large::report;
use super::{field_question, long_message, lookup_question, message, Bytes};
use crate::reading::{LONGEST_MESSAGE, MOST_SEGMENTS};

pub fn large() -> Vec<Bytes> {
    [last_segments(), parts_of_a_report(), long_values()].concat()
}

/// The last element of the last segment that may be, in bytes and in values, and the segment behind
/// it.
fn last_segments() -> Vec<Bytes> {
    let last = MOST_SEGMENTS as u64 - 1;
    let longest = long_message(MOST_SEGMENTS, &[(MOST_SEGMENTS - 1, "NTE|1|L|a~b^c&")]);
    let results = result_with(MOST_SEGMENTS - 2, 5, "-12.50");
    let times = result_with(MOST_SEGMENTS - 2, 14, "20240229093001.05-0030");
    vec![
        lookup_question("find", &longest, [last, 3, 2, 2, 2]),
        lookup_question("nm", &results, [last, 5, 1, 1, 1]),
        lookup_question("si", &results, [last, 5, 0, 0, 0]),
        lookup_question("ts", &times, [last, 14, 1, 0, 0]),
        lookup_question("dt", &times, [last, 15, 0, 0, 0]),
        lookup_question("find", &times, [last + 1, 1, 0, 0, 0]),
    ]
}

/// What an ED holds: of its components the fourth, the fifth, which is nearly all of the message,
/// and one that is not there; and data of very many subcomponents.
fn parts_of_a_report() -> Vec<Bytes> {
    let whole = report(LONGEST_MESSAGE);
    let parts = "JVBERi0x&".repeat(116_000);
    let of_parts =
        message(&[r"MSH|^~\&", &format!("OBX|2|ED|PDF||^application^PDF^Base64^{parts}")]);
    vec![
        lookup_question("find", &report(100_000), [5, 5, 1, 4, 0]),
        lookup_question("find", &whole, [5, 5, 1, 5, 0]),
        lookup_question("find", &report(100_000), [5, 5, 1, 6, 0]),
        lookup_question("find", &of_parts, [1, 5, 1, 5, 116_000]),
        lookup_question("find", &report(LONGEST_MESSAGE + 1), [5, 5, 1, 5, 0]),
    ]
}

/// Values that fill a message: 37 is told from 32 at the last byte.
fn long_values() -> Vec<Bytes> {
    let most = LONGEST_MESSAGE - r"MSH|^~\&|".len() - 1;
    let digits = |length| b"1234567890".iter().copied().cycle().take(length).collect::<Bytes>();
    vec![
        field_question("nm", &digits(most)),
        field_question("nm", &[&digits(100_000)[..], b"x"].concat()),
        field_question("si", &digits(100_000)),
        field_question("dt", &digits(100_000)),
        field_question("tm", &[&b"0930.5"[..], &digits(100_000)].concat()),
        field_question("ts", &vec![b'x'; most]),
        field_question("ts", &[&b"20240229093001.5"[..], &digits(100_000)].concat()),
    ]
}
