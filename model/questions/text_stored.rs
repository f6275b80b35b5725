//! The stored questions of the verbs `escape` and `unescape`: every byte, sequences of every kind cut
//! at every place, buffers of every size around the one that is enough, bad delimiters, and each two
//! faults together.

use super::{changed, latin, text_question, Bytes, TEXTS, USUAL_DELIMITERS};

pub fn stored() -> Vec<Bytes> {
    let questions = [
        samples(),
        every_byte(),
        every_byte_in_a_sequence(),
        known_sequences(),
        unknown_sequences(),
        cut_sequences(),
        quotes(),
        rooms(),
        two_faults(),
        bad_delimiters(),
        other_delimiters(),
        long_texts(),
        no_questions(),
    ];
    questions.concat()
}

fn escape(text: &[u8], room: usize) -> Bytes {
    text_question("escape", text, &USUAL_DELIMITERS, room)
}

fn unescape(text: &[u8], room: usize) -> Bytes {
    text_question("unescape", text, &USUAL_DELIMITERS, room)
}

/// The samples of the paper and of ASK.md, with room to spare.
fn samples() -> Vec<Bytes> {
    vec![
        unescape(br"10\S\9/l", 8),
        unescape(br"201104\E\123456", 16),
        unescape(br"\E\F\E\", 8),
        unescape(br"\X\", 4),
        unescape(br"a\F", 4),
        escape(b"\"\"", 8),
        escape(b"10^9/l", 9),
        escape(br"201104\123456", 16),
        escape(br"\F\", 8),
    ]
}

/// Every byte, alone.
fn every_byte() -> Vec<Bytes> {
    (0..=0xFF).flat_map(|byte| [escape(&[byte], 5), unescape(&[byte], 2)]).collect()
}

/// Every byte as the letter of a sequence, and as the first digit of a pair or the second.
fn every_byte_in_a_sequence() -> Vec<Bytes> {
    let mut lines = Vec::new();
    for byte in 0..=0xFF {
        lines.push(unescape(&[b'\\', byte, b'\\'], 1));
    }
    // Near the digits of both cases, and bytes that a table of 128 entries finds elsewhere.
    for byte in *b"/09:;?@AFGNOXZ[`afgnoxz{ +-.|^~&\"\r\n\0\x7F\x80\xA0\xB0\xC1\xE1\xFF" {
        lines.push(unescape(&[b'\\', b'X', byte, b'1', b'\\'], 1));
        lines.push(unescape(&[b'\\', b'X', b'1', byte, b'\\'], 1));
    }
    lines
}

/// Each letter alone and within text; digits of either case; sequences that stand together, so that
/// the byte which closes one doesn't open the next.
fn known_sequences() -> Vec<Bytes> {
    let texts = [
        r"\F\\S\\T\\R\\E\", r"F\F\F", r"a\S\b\T\c\R\d\E\e", r"\E\\E\", r"\E\E\E\", r"\E\X41\E\",
        r"\F\F\F\", r"\X41\B\X43\", r"\X41\\X42\", r"\X4142\", r"\X41424344\", r"\X0D\", r"\X0d\",
        r"\X0D0A\", r"\X00\", r"\XFF\", r"\Xff\", r"\XfF\", r"\XFf\", r"\X7C\", r"\X5C\",
        r"\X5C465C\", r"\X5C\F\X5C\", r"\X5e7E\", r"\XabCDef\", r"\XABcdEF\", r"\X0123456789\",
        r"\X80\", r"\X9f\", r"\Xa0\", r"\X22\", r"\X2222\", r"\X22\\X22\", "\"\\X22\\",
        "\\X22\\\"", r"\X58\", r"X\X58\X", r"\X0a\x", r"\E\X41\E\X42\E\", "é\\S\\ü", r" \F\ ",
    ];
    texts.iter().map(|text| unescape(&latin(text), 10)).collect()
}

/// "Others are refused", also where HL7 has a meaning for them, alone and behind a byte of text.
fn unknown_sequences() -> Vec<Bytes> {
    let insides = [
        "", "f", "s", "t", "r", "e", "x41", "x", "X", "X4", "X414", "X41424", "X4G", "XG4", "X4 ",
        "X 4", "X 41", "X41 ", " X41", "X+4", "X-4", "X4.", "X0x41", "XX", "XX41", "X4X", "X4|",
        "X|", "X4^1", "X41\r", "X\n4", "X\u{80}4", "XÁ1", "X41é1", "H", "N", "P", "C2842", "C2842",
        "M244242", "M244242FF", "Z", "Z41", "ZX41", ".br", ".sp", ".sp+1", ".in-2", ".fi", ".nf",
        ".ce", ".ti4", "FF", "FS", "F ", " F", "F|", "F|S", "|", "^", "~", "&", "\"\"", "\"", "0",
        "41", "0x41", "u0041", "é", "\r", "\0", "\u{7F}", "\u{80}", "\u{FF}",
    ];
    let mut lines = Vec::new();
    for inside in insides {
        lines.push(unescape(&latin(&format!(r"\{inside}\")), 3));
    }
    for inside in ["", "f", "X", "X4", "H", ".br", "F|S", "\r"] {
        lines.push(unescape(&latin(&format!(r"a\{inside}\b")), 3));
        lines.push(unescape(&latin(&format!(r"\F\\{inside}\|")), 3));
    }
    lines
}

/// Texts of sequences, without what stands behind each place and without what stands before it.
fn cut_sequences() -> Vec<Bytes> {
    let texts = [
        r"\F\", r"a\E\b", r"\X0D\", r"\X41424344\", r"\.br\", r"\H\", r"\C2842\", r"\M244242\",
        r"\Z41\", r"\Xaf\", r"\X414\", r"\X\", r"\\", r"\\\\", r"\E\\F\", r"\F|S\", r"\F\|\S\",
        "\\S\\\r", r"\X2222\",
    ];
    let mut lines = Vec::new();
    for text in texts {
        let text = text.as_bytes();
        for place in 0..=text.len() {
            lines.push(unescape(&text[..place], 4));
            lines.push(unescape(&text[place..], 4));
        }
    }
    lines
}

/// Null is exactly two quotes as they stand; and none but two quotes alone are written as `\X2222\`.
fn quotes() -> Vec<Bytes> {
    let texts = [
        "", "\"", "\"\"", "\"\"\"", "\"\"\"\"", "\"\"a", "a\"\"", "\"a\"", " \"\"", "\"\" ", "''",
        "\"\"^", "^\"\"", "\"\"\\", "\"^\"", r"\X2222\", r"\X2222\a", r"\X22\", "\"\r\"", "\"\"\r",
        r"\E\X2222\E\", "\u{22}\u{80}",
    ];
    let mut lines = Vec::new();
    for text in texts {
        lines.push(escape(&latin(text), 13));
        lines.push(unescape(&latin(text), 6));
        lines.push(escape(&latin(text), 0));
        lines.push(unescape(&latin(text), 0));
    }
    lines
}

/// Every size of buffer, from none to one byte more than enough.
fn rooms() -> Vec<Bytes> {
    let mut lines = Vec::new();
    for (text, enough) in
        [("", 0), ("a", 1), ("abc", 3), ("|", 3), ("\r", 5), ("a|b", 5), ("^\r", 8), ("\"\"", 7)]
    {
        lines.extend((0..=enough + 1).map(|room| escape(&latin(text), room)));
    }
    lines.extend((0..=15).map(|room| escape(b"A\\\0B&\xFF", room)));
    for (text, enough) in [
        ("", 0),
        ("a", 1),
        ("abc", 3),
        (r"\F\", 1),
        (r"a\T\b", 3),
        (r"\X41424344\", 4),
        (r"\X41\\X42\cd", 4),
        (r"\X2222\", 2),
        (r"ab\E\\R\é", 5),
    ] {
        lines.extend((0..=enough + 1).map(|room| unescape(&latin(text), room)));
    }
    lines
}

/// Each fault of a text before and behind each other, and with no room: "the leftmost of 4, 11, 12,
/// 13, then 14".
fn two_faults() -> Vec<Bytes> {
    let faults =
        ["\u{80}", "\r", "\n", "|", "^", "~", "&", r"\f\", r"\\", r"\X4\", r"\|\", r"\", "ab"];
    let mut lines = Vec::new();
    for first in faults {
        for second in faults {
            lines.push(unescape(&latin(&format!("a{first}{second}")), 1));
        }
        lines.push(unescape(&latin(&format!("\"\"{first}")), 0));
        lines.push(unescape(&latin(&format!(r"\F\{first}")), 0));
        lines.push(unescape(&latin(&format!("{first}\"\"")), 2));
    }
    lines
}

/// A byte of every kind that is not permitted at each of the five places, each two equal, and 3
/// together with every later number.
fn bad_delimiters() -> Vec<Bytes> {
    let bad = *b"\"+-.09AFSRETXZaz \r\n\t\0\x1F\x7F\x80\x9F\xA0\xFF";
    let mut lines = Vec::new();
    for verb in TEXTS {
        for place in 0..5 {
            for byte in bad {
                let delimiters = changed(&USUAL_DELIMITERS, place, byte);
                lines.push(text_question(verb, b"a", &delimiters, 1));
            }
            for other in (0..5).filter(|&other| other != place) {
                let equal = changed(&USUAL_DELIMITERS, place, USUAL_DELIMITERS[other]);
                lines.push(text_question(verb, b"a", &equal, 1));
                let and_bad = changed(&equal, (other + 1) % 5, b'A');
                lines.push(text_question(verb, b"a", &and_bad, 1));
            }
            let delimiters = changed(&USUAL_DELIMITERS, place, b'A');
            for text in ["", "A", "\"\"", "\r", "|", r"\f\", r"\F"] {
                lines.push(text_question(verb, text.as_bytes(), &delimiters, 0));
            }
        }
        for delimiters in [b"|||||", br"\\\\\", b"\0\0\0\0\0", b"ABCDE", b"\"\"\"\"\"", b"12345"] {
            lines.push(text_question(verb, b"\"\"", delimiters, 0));
        }
    }
    lines
}

/// Sets where the usual delimiters have other meanings or none, and together every byte that may
/// delimit at every place.
fn other_delimiters() -> Vec<Bytes> {
    let mut lines = Vec::new();
    for delimiters in [br"\&~^|", br"|^~&\", b"^|~\\&", b"#$%*@"] {
        for text in [r"|^~\&", r"\F\\S\", r"^F^^S^^R^^E^^T^", "*F**S*", "*X23*", "&X5c&", r"\", "*"]
        {
            lines.push(text_question("escape", text.as_bytes(), delimiters, 28));
            lines.push(text_question("unescape", text.as_bytes(), delimiters, 8));
        }
    }
    let permitted = b"!#$%&'()*,/:;<=>?@[\\]^_`{|}~";
    for first in 0..permitted.len() {
        let delimiters = [0, 1, 2, 3, 4].map(|next| permitted[(first + next) % permitted.len()]);
        let escape = delimiters[3];
        lines.push(text_question("escape", &delimiters, &delimiters, 15));
        let text: Bytes = b"FSRET".iter().flat_map(|&letter| [escape, letter, escape]).collect();
        lines.push(text_question("unescape", &text, &delimiters, 5));
    }
    lines
}

/// All 256 bytes in one text, written and read back; and one sequence of all of them.
fn long_texts() -> Vec<Bytes> {
    let every_byte: Bytes = (0..=0xFF).collect();
    let written = every_byte.iter().flat_map(|&byte| written(byte)).collect::<Bytes>();
    let digits: String = every_byte.iter().map(|byte| format!("{byte:02x}")).collect();
    vec![
        escape(&every_byte, written.len()),
        escape(&every_byte, written.len() - 1),
        unescape(&written, every_byte.len()),
        unescape(&written, every_byte.len() - 1),
        unescape(format!(r"\X{digits}\").as_bytes(), every_byte.len()),
        unescape(format!(r"\X{digits}0\").as_bytes(), 0),
        unescape(format!(r"\X{digits}").as_bytes(), 0),
    ]
}

/// A byte as it is written with the usual delimiters, in a way of writing that is no other's.
fn written(byte: u8) -> Bytes {
    match byte {
        b'|' => latin(r"\F\"),
        b'^' => latin(r"\S\"),
        b'~' => latin(r"\R\"),
        b'\\' => latin(r"\E\"),
        b'&' => latin(r"\T\"),
        0x20..=0x7E | 0xA0..=0xFF => vec![byte],
        _ => latin(&format!(r"\X{byte:02X}\")),
    }
}

/// Lines that come near a question of these verbs.
fn no_questions() -> Vec<Bytes> {
    let mut lines = Vec::new();
    for verb in TEXTS {
        for rest in [
            "",
            " ",
            " 41",
            " 41 7c5e7e5c26",
            " 7c5e7e5c26 4",
            " 41 7c5e7e5c26 4 ",
            " 41 7c5e7e5c26 4 4",
            " 41  7c5e7e5c26 4",
            "  41 7c5e7e5c26 4",
            " 41 7c5e7e5c26  4",
            " 41 7c 5e 7e 5c 26 4",
            " 41 7c5e7e5c26 ",
            " 41 4 7c5e7e5c26",
            " 4 7c5e7e5c26 4",
            " 4g 7c5e7e5c26 4",
            " 414 7c5e7e5c26 4",
            " -- 7c5e7e5c26 4",
            " - 7c5e7e5c26 4",
            " 41 - 4",
            " 41 7c 4",
            " 41 7c5e7e5c 4",
            " 41 7c5e7e5c2 4",
            " 41 7c5e7e5c2g 4",
            " 41 7c5e7e5c260 4",
            " 41 7c5e7e5c2623 4",
            " 41 7c5e7e5c267c5e7e5c26 4",
            " 41 4141414141 4",
            " 41 41414141 4",
            " 41 7C5E7E5C26 4",
            " 4A 7c5E7e5C26 4",
            " 41 7c5e7e5c26 -",
            " 41 7c5e7e5c26 -1",
            " 41 7c5e7e5c26 +4",
            " 41 7c5e7e5c26 0",
            " 41 7c5e7e5c26 00",
            " 41 7c5e7e5c26 04",
            " 41 7c5e7e5c26 4.0",
            " 41 7c5e7e5c26 0x4",
            " 41 7c5e7e5c26 a",
            " 41 7c5e7e5c26 4a",
            " 41 7c5e7e5c26 4\t",
            " 41 7c5e7e5c26 4\r",
            " 41 7c5e7e5c26 65537",
            " 41 7c5e7e5c26 65540",
            " 41 7c5e7e5c26 99999",
            " 41 7c5e7e5c26 131076",
            " 41 7c5e7e5c26 4294967296",
            " 41 7c5e7e5c26 4294967300",
            " 41 7c5e7e5c26 18446744073709551615",
            " 41 7c5e7e5c26 18446744073709551616",
            " 41 7c5e7e5c26 18446744073709551620",
            " 2222 7c5e7e5c26 65537",
            " 41 7c5e7e5c 65536",
            " 41 0000000000 65537",
        ] {
            lines.push(format!("{verb}{rest}"));
        }
        lines.push(format!("{} 41 7c5e7e5c26 4", verb.to_uppercase()));
        lines.push(format!("{verb}s 41 7c5e7e5c26 4"));
        lines.push(format!(" {verb} 41 7c5e7e5c26 4"));
        lines.push(format!("{verb}\t41 7c5e7e5c26 4"));
    }
    lines.into_iter().map(String::into_bytes).collect()
}
