//! The large set of the verbs `read`, `structure` and `verdict`: messages as long as may be, of one
//! segment and of as many as may be, with each fault that can stand at their end.

use super::error_places::result_with;
use super::filled::{header_of_oru, message_with, segment};
use super::read_stored::{faults, with_faults};
use super::{changed, long_message, message, read_question, stretched, structure_question};
use super::{verdict_question, Bytes, LONG_IDS};
use crate::reading::{LONGEST_MESSAGE, MOST_SEGMENTS};

pub fn large() -> Vec<Bytes> {
    let mut lines: Vec<Bytes> = read().iter().map(|message| read_question(message)).collect();
    lines.extend(structures().iter().map(|message| structure_question(message)));
    lines.extend(verdicts().iter().map(|message| verdict_question(message)));
    lines
}

/// The last segment that may be.
const LAST: usize = MOST_SEGMENTS - 1;

fn read() -> Vec<Bytes> {
    let one_segment = |length| stretched(message(&[r"MSH|^~\&|"]), length);
    let longest = long_message(MOST_SEGMENTS, &[]);
    // Every other fault as well: 1 has to come before them all.
    let mut faulty = with_faults(&faults());
    faulty.resize(LONGEST_MESSAGE + 1, b'A');
    vec![
        one_segment(LONGEST_MESSAGE - 1),
        one_segment(LONGEST_MESSAGE),
        one_segment(LONGEST_MESSAGE + 1),
        faulty,
        changed(&one_segment(100_000), 8, b'x'),        // 2
        changed(&one_segment(100_000), 7, b'^'),        // 3
        changed(&longest, LONGEST_MESSAGE - 1, b'\n'),  // 4
        changed(&longest, LONGEST_MESSAGE - 1, b'x'),   // 5
        long_message(MOST_SEGMENTS, &[(LAST, "nte|")]), // 6
        long_message(MOST_SEGMENTS, &[(LAST, "MSH|")]), // 7
        long_message(MOST_SEGMENTS + 1, &[(LAST + 1, "")]), // 8
        longest,
    ]
}

/// Accepted; 21 at the last segment; 22; and accepted again, of short segments.
fn structures() -> Vec<Bytes> {
    vec![
        long_message(MOST_SEGMENTS, &[]),
        long_message(MOST_SEGMENTS, &[(LAST, "EVN|")]),
        stretched(message(&[&header_of_oru(&[]), "PID", "ORC|"]), 100_000),
        result_with(MOST_SEGMENTS - 2, 11, ""),
    ]
}

/// Accepted; 31, 32, 33 and 37 in the last segment, and 8 behind it; 37 at MSH-10; and of half a
/// million repetitions 36, and 32 at the last.
fn verdicts() -> Vec<Bytes> {
    let last_result = |field, content| result_with(MOST_SEGMENTS - 2, field, content);
    let results: Vec<(usize, &str)> = (2..LAST).map(|at| (at, "OBX|||1||||||||F||||")).collect();
    let too_many_digits = (LAST, "OBX||NM|1||1234567890123456789||||||F||||");
    let with_id = message(&[&header_of_oru(&[(10, LONG_IDS[1])]), "OBR||"]);
    vec![
        report(LONGEST_MESSAGE),
        last_result(11, "F"),
        last_result(11, ""),
        last_result(1, "10000"),
        last_result(11, "Q"),
        long_message(MOST_SEGMENTS, &[&results[..], &[too_many_digits]].concat()),
        result_with(MOST_SEGMENTS - 1, 11, "Q"),
        stretched(with_id, LONGEST_MESSAGE),
        message_with("OBX", &[(3, &"1~".repeat(500_000))]),
        message_with("OBX", &[(5, &("5~".repeat(500_000) + "x"))]),
    ]
}

/// A report of this many bytes, of which the last result is a PDF in base64, as document 001 has
/// it.
pub fn report(length: usize) -> Bytes {
    let with_data = |data: &str| {
        let value = format!("^application^PDF^Base64^{data}");
        let name = (3, "PDF^Display format in PDF^AUSPDI");
        let result = segment("OBX", &[(1, "2"), (2, "ED"), name, (5, &value)]);
        let text = r"OBX|1|FT|11488-4^^LN||test\.br\||||||F";
        message(&[&header_of_oru(&[]), "PID|||1||A", "ORC|RE", "OBR|1", text, &result])
    };
    let left = length - with_data("").len();
    let data = "JVBERi0xLjQKMSAwIG9iago8PAovVGl0bGUgKP7/KQovQ3Jl".chars();
    with_data(&data.cycle().take(left).collect::<String>())
}
