//! The stored questions of what all lookups share: the order of a reading fault, 19, and then 32 or
//! 37; the states, of which an element not present gives nothing else; and one field that holds
//! something for every type, asked by every address.

use super::{addresses, field_question, latin, lookup_question, message, Bytes, LOOKUPS};

pub fn stored() -> Vec<Bytes> {
    [reading_faults(), bad_addresses(), states(), values_by_address(), header_fields()].concat()
}

/// A message of each reading fault but 8, asked for an element that would be found, would be 32 or would
/// be 19.
fn reading_faults() -> Vec<Bytes> {
    let texts = [
        "",                           // 1
        "MSH|^~\\&5\r",               // 2
        "MSH|^~\\^|5\r",              // 3
        "MSH|^~\\&|5\u{80}\r",        // 4
        "MSH|^~\\&|5\rPID|5",         // 5
        "MSH|^~\\&|5\rPIDX\rPID|5\r", // 6
        "MSH|^~\\&|5\rMSH|5\r",       // 7
    ];
    let mut lines = Vec::new();
    for verb in LOOKUPS {
        for text in texts {
            for address in [[0, 3, 0, 0, 0], [0, 1, 0, 0, 0], [3, 0, 0, 0, 0]] {
                lines.push(lookup_question(verb, &latin(text), address));
            }
        }
    }
    lines
}

/// 19 before 32 and 37, and before the states.
fn bad_addresses() -> Vec<Bytes> {
    let message = message(&[r"MSH|^~\&|x|1234567890123456789", r#"PID|1|"""#]);
    let bad = [
        [0, 0, 0, 0, 0],
        [0, 3, 0, 1, 0],
        [0, 3, 1, 0, 1],
        [0, 4, 0, 0, 1],
        [0, 1, 0, 1, 0],
        [1, 0, 1, 1, 1],
        [1, 1, 0, 1, 1],
        [1, 2, 0, 1, 0],
        [1, 3, 1, 0, 1],
        [1, 9, 0, 1, 0],
        [2, 1, 0, 0, 0],
        [1 << 32, 1, 0, 0, 0],
        [u64::MAX, 1, 1, 1, 1],
        [1, 1, 0, 1 << 32, 0],
    ];
    LOOKUPS
        .iter()
        .flat_map(|verb| bad.map(|address| lookup_question(verb, &message, address)))
        .collect()
}

/// Absent, empty and null, each of which gives its state alone, and fields near them that are
/// present.
fn states() -> Vec<Bytes> {
    let fields = [
        "", "^", "&", "~", "~^&", r#""""#, r#"""^"#, r#"^"""#, r#"""~"#, r#"""#, r#"""""#,
        r#""5""#, " ", r"\", r"\X2222\", r"\X35\", r"\E\", "5^", "^5", "5~", "0", "00",
    ];
    let mut lines = Vec::new();
    for verb in LOOKUPS {
        for field in fields {
            lines.push(field_question(verb, field.as_bytes()));
        }
        let header = message(&[r"MSH|^~\&", "PID", "PID|"]);
        for address in [
            [0, 3, 0, 0, 0],
            [0, 3, 1, 1, 1],
            [1, 1, 0, 0, 0],
            [2, 1, 0, 0, 0],
            [2, 1, 1, 1, 1],
            [2, 1, 2, 0, 0],
            [2, 1, 1, 1, 2],
            [2, 2, 0, 0, 0],
        ] {
            lines.push(lookup_question(verb, &header, address));
        }
    }
    lines
}

/// `2024` is a number and a time of every type, `12` no date, `240` no time at all.
fn values_by_address() -> Vec<Bytes> {
    let usual = message(&[r"MSH|^~\&", r#"PID|x|2024^12&240~""^"#]);
    let other = message(&["MSH#$%*@", r#"PID#x#2024$12@240%""$"#]);
    let mut lines = Vec::new();
    for verb in LOOKUPS {
        for [repetition, component, subcomponent] in addresses(2, 2, 2) {
            let address = [1, 2, repetition, component, subcomponent];
            lines.push(lookup_question(verb, &usual, address));
        }
        for address in [[1, 2, 1, 1, 0], [1, 2, 1, 2, 1], [1, 2, 1, 2, 2], [1, 2, 2, 1, 0]] {
            lines.push(lookup_question(verb, &other, address));
        }
    }
    lines
}

/// MSH-1 and MSH-2 are present, and neither a number nor a time; MSH-3 is the first to hold one.
fn header_fields() -> Vec<Bytes> {
    let message = message(&[r"MSH|^~\&|2024|1200"]);
    let mut lines = Vec::new();
    for verb in LOOKUPS {
        for field in 1..=5 {
            lines.push(lookup_question(verb, &message, [0, field, 0, 0, 0]));
            lines.push(lookup_question(verb, &message, [0, field, 1, 1, 1]));
            lines.push(lookup_question(verb, &message, [0, field, 1, 2, 1]));
        }
    }
    lines
}
