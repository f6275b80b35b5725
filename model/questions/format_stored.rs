//! The stored questions of the verb `format`: every row of docs/FORMATTED.md, the forms of each command
//! and the forms next to them, numbers and lines about as long as may be, line ends of every kind, and each
//! two faults together. The wide set has more of each.

use super::{changed, format_length, latin, text_question, Bytes, USUAL_DELIMITERS};

/// HL7's own example, the impression of a radiologist's report (docs/FORMATTED.md).
pub const IMPRESSION: &str = r"\.in+4\\.ti-4\ 1. The cardio-mediastinal silhouette is now within normal limits.\.br\\.ti-4\ 2. Lung fields show minimal ground glass appearance.\.br\\.ti-4\ 3. A loop of colon visible in the left upper quadrant is distinctly abnormal with the appearance of mucosal effacement suggesting colitis.\.in-4\";

pub fn stored() -> Vec<Bytes> {
    let questions = [
        examples(),
        commands(),
        no_commands(),
        numbers(),
        number_forms(),
        line_ends(),
        blanks_and_margins(),
        spaces(),
        edges_of_a_line(),
        centred_lines(),
        long_words(),
        rooms(),
        no_questions(),
        two_faults(),
        delimiters(),
    ];
    questions.concat()
}

pub fn format(text: &[u8], room: usize) -> Bytes {
    text_question("format", text, &USUAL_DELIMITERS, room)
}

/// Each text with just the room that it needs, or with none where it is refused.
pub fn whole(texts: &[&str]) -> Vec<Bytes> {
    let ask = |text: Bytes| format(&text, format_length(&text, USUAL_DELIMITERS));
    texts.iter().map(|text| ask(latin(text))).collect()
}

/// The examples of FORMATTED.md and of ASK.md, and HL7's own.
fn examples() -> Vec<Bytes> {
    let texts = [
        r"test\.br\",
        r"Comment:\.br\\.br\",
        r"a\.sp\b",
        r"abc\.sp2\d",
        r"\.in+4\a\.br\b\.in-4\\.br\c",
        r"\.in+4\\.ti-4\ 1. x\.br\y",
        r"a\.sk 3\b\.sk 0\c",
        r"Na  139  ",
        r"a\X0D0A\b\X0A\c\X0D\d\X0A0D\e",
        r"\H\HI\N\GH",
        r"\.ce\ab\.br\c",
        r"\.ti-1\x",
        r"\.in-1\",
        r"\.sk201\",
        r"\.in-201\",
        r"\.sk-1\",
        r"\.sk201\a|",
        r"a\X0D\\H\\X0A\b",
        r"\X5C2E62725C\",
        IMPRESSION,
    ];
    whole(&texts)
}

/// Each command between two words, and what unescaping knows as well.
fn commands() -> Vec<Bytes> {
    let mut texts: Vec<String> =
        [".br", ".fi", ".nf", ".sp", ".sp2", ".sp0", ".sk2", ".in2", ".ti2", "H", "N"]
            .iter()
            .map(|inside| format!(r"a \{inside}\ b"))
            .collect();
    texts.extend(
        [
            r"\.br\", r"\.sp\", r"\.sk2\", r"\.fi\", r"\N\", r"a\.fi\b\.nf\c", r"\F\\S\\T\\R\\E\",
            r"a\E\.br\E\b", r"\X4142\\.br\", r"\X000B1F7F85A0FF\", "a\u{A0}", r"\X2009\ ",
            "é\\H\\ü", r"\X2222\", "\"\"\\.br\\", "\"\\H\\\"", "\"", "", " ",
        ]
        .map(str::to_string),
    );
    whole(&texts.iter().map(String::as_str).collect::<Vec<_>>())
}

/// "Anything else: refused, 12."
fn no_commands() -> Vec<Bytes> {
    let insides = [
        ".in", ".ti", ".sk", ".in+", ".ti-", ".sp ", ".sp +", ".br1", ".br ", ".ce1", ".fi0",
        ".nf ", ".BR", ".sP", ".xx", ".xx4", ".", ".b", ".i4", ".sp2x", ".sp2 ", ".sp  2",
        ".sp+ 2", ".sp++2", ".sk+-2", ".in2.0", ".sk\u{A0}2", ".sp|2", ".in\r", ".sk:", ".sk/",
        " .br", "br", "HN", "h", "Z..", "P", "X2E6",
    ];
    insides.iter().map(|inside| format(&latin(&format!(r"\{inside}\")), 0)).collect()
}

/// Numbers about the ends of what each command takes. With no room, 14 tells that one was taken where
/// 42 tells that it was not.
fn numbers() -> Vec<Bytes> {
    let texts = [
        r"\.sp200\", r"\.sp201\", r"\.sp-0\", r"\.sp-1\", r"\.sk200\", r"\.sk-0\", r"\.sk256\",
        r"\.in200\", r"\.in201\", r"\.in-0\", r"\.ti200\", r"\.ti201\", r"\.ti-0\", r"\.ti-201\",
        r"\.in200\\.in1\", r"\.in200\\.in-200\", r"\.in200\\.ti-200\", r"\.in200\\.in-201\",
        r"\.in200\\.ti-201\", r"\.in200\\.ti1\", r"\.in1\\.ti199\", r"\.in1\\.ti200\",
        r"\.in1\\.ti-2\",
    ];
    texts.iter().map(|text| format(text.as_bytes(), 0)).collect()
}

/// One number in its spellings, and numbers that come out as another where they are cut to some bits
/// or digits.
fn number_forms() -> Vec<Bytes> {
    let zeros = "0".repeat(30);
    let forms = [
        "3",
        "03",
        "+3",
        " 3",
        " +3",
        " 03",
        &format!("{zeros}3"),
        &format!("-{zeros}"),
        "259",
        "65539",
        "4294967299",
        "18446744073709551619",
        "-18446744073709551613",
        "-253",
        "0201",
        &format!("{zeros}201"),
        &format!("3{zeros}"),
    ];
    let mut lines: Vec<Bytes> =
        forms.iter().map(|form| format(format!(r"\.sk{form}\b").as_bytes(), 4)).collect();
    for form in [" 3", "+03", "4294967299"] {
        for command in ["sp", "in", "ti"] {
            lines.push(format(format!(r"\.{command}{form}\b").as_bytes(), 4));
        }
    }
    for form in [" -3", "-03", "-4", "-4294967299", "18446744073709551613"] {
        lines.push(format(format!(r"\.in3\\.ti{form}\b").as_bytes(), 1));
    }
    lines
}

/// "CR, LF, or CR with LF behind it: ends the line, once"; a highlight between them is no item, and
/// every other thing is one.
fn line_ends() -> Vec<Bytes> {
    whole(&[
        r"a\X0D\\X0A\b", r"a\X0D0D0A\b", r"a\X0D0A0A\b", r"a\X0A0D0A\b", r"a\X0D\ \X0A\b",
        r"a\X0D\\.br\\X0A\b", r"a\X0D\\.fi\\X0A\b", r"a\X0D\\.sk0\\X0A\b", r"a\X0A\\.br\b",
        r"a \X0D0A\ b", r"\X0D0A\", r"\.in2\\X0D\\X0A\a", "a\rb", "a\nb",
    ])
}

/// "Blanks are owed, not written"; margins add up, and may come too late for their line.
fn blanks_and_margins() -> Vec<Bytes> {
    whole(&[
        "  a", r" \.br\ a \.br\  ", r"a \.sk2\\.br\b", r"\.sk2\\.in1\a", r"\.in2\ ",
        r"\.in2\\.br\\.br\", r"\.in2\ a\.br\ b", r"\.nf\a  \.br\ ", r"\.in2\\.in3\a",
        r"\.in2\\.in-2\a", r"\.in2\\.in-3\a", r"a\.in2\b\.br\c", r"a\.ti2\b\.br\c", r"a\.ti-1\",
        r"a\.ti2\\.br\c", r"\.ti2\a\.br\b", r"\.ti2\\.br\b", r"\.ti2\\.ti1\a", r"\.ti2\\.in1\a",
        r"\.in1\\.ti2\a\.br\b", r"\.in2\\.ti0\a",
    ])
}

/// `.sp` keeps its column, also that of an empty line, and gives it up for `.in`, `.ti` and a line end.
fn spaces() -> Vec<Bytes> {
    whole(&[
        r"\.sp3\a", r"ab\.sp0\c", r"ab\.sp1\c\.br\d", r"ab\.sp\\.sp\c", r"ab\.sp\\.br\c",
        r"ab \.sp\ c", r"\.in3\\.sp\a", r"\.ti3\\.sp\a\.br\b", r"ab\.sp\\.in1\c",
        r"ab\.sp\\.ti1\c", r"ab\.sp2\", r"ab\.sp\\X0A\c", r"a\.sk199\\.sp\b",
        r"\.nf\a\.sk199\\.sp\b", r"\.nf\a\.sk199\\.sp\\.br\b",
    ])
}

/// Lines of 199 to 201 bytes, mostly of skips, so that with little room they are short questions: what
/// fits is 14 then, what wraps is written, and an unfilled line that is too long is 42.
fn edges_of_a_line() -> Vec<Bytes> {
    let texts = [
        r"a\.sk198\b", r"a\.sk199\b", r"a\.sk198\b\H\c", r"a\.sk198\b\.fi\c", r"a \.sk198\b",
        r"\.sk200\b", r"\.sk200\\.sk56\b", r"\.in3\a\.sk195\b", r"\.in3\a\.sk196\b",
        r"\.ti3\a\.sk196\b\.sk1\c", r"\.in3\\.ti-3\a\.sk199\b", r"\.in199\a", r"\.in199\ab",
        r"\.ti200\a", r"\.in1\\.sk199\a", r"a\.in200\ \.sk199\b", r"a\.in198\\.sk199\bc",
        r"a\.sk198\\XA0\", r"\.nf\a\.sk198\b", r"\.nf\a\.sk199\b", r"\.nf\a\.sk200\ ",
        r"\.nf\\.ti200\a", r"\.nf\\.sk200\\.sk56\b", r"\.nf\a\.sk199\\.fi\b", r"a\.sk199\\.nf\b",
        r"a\.sk199\b\.nf\", r"a\.sk197\b\.fi\c\H\d",
    ];
    let mut lines: Vec<Bytes> = texts.iter().map(|text| format(&latin(text), 5)).collect();
    lines.push(format(format!("a{}b", " ".repeat(199)).as_bytes(), 5));
    lines
}

/// Centred lines: rounded to the left, margins not looked at; one that is empty stays so.
fn centred_lines() -> Vec<Bytes> {
    let mut lines = whole(&[
        r"a\.ce\", r"\.ce\\.br\a", r"\.ce\\.ce\", r"\.in2\\.ce\\.br\a", r"\.in2\\.ce\a",
        r"\.ce\a\.sp\b", r"\.in2\\.ce\\.sp\a",
    ]);
    let short_of_room = [r"\.ce\a\.sk198\b c", r"\.nf\\.ce\a\.sk199\b", r"\.in200\\.ce\a\.sk198\b"];
    lines.extend(short_of_room.iter().map(|text| format(text.as_bytes(), 0)));
    lines
}

/// Words of 200 bytes and of 201, filled or not, and behind a margin.
fn long_words() -> Vec<Bytes> {
    let word = "x".repeat(201);
    let (first, second) = (&word[..150], "y".repeat(50));
    let refused_or_not = [
        word[..200].to_string(),
        word.clone(),
        format!(r"\.nf\{word}"),
        format!(r"\.in1\{}", &word[..200]),
        format!(r"\.nf\{first} {second}"),
    ];
    let mut lines: Vec<Bytes> =
        refused_or_not.iter().map(|text| format(text.as_bytes(), 0)).collect();
    lines.extend(whole(&[&format!("{first} {second}")]));
    lines
}

/// Every size of buffer, from none to one byte more than enough.
fn rooms() -> Vec<Bytes> {
    let mut lines = Vec::new();
    for (text, enough) in [("", 0), (r"\.in1\a \.br\ b ", 6), (r"a\.sk2\", 1), (r"\.sp2\", 2)] {
        lines.extend((0..=enough + 1).map(|room| format(text.as_bytes(), room)));
    }
    lines
}

/// Each fault before and behind each other, with too little room: "the leftmost of 4, 11, 12, 13, then
/// 42, then 14"; and with two quotes, or delimiters that are none.
fn two_faults() -> Vec<Bytes> {
    let faults = ["\n", "|", r"\.x\", r"\", r"\.sk201\", "b"];
    let mut lines = Vec::new();
    for first in faults {
        for second in faults {
            lines.push(format(&latin(&format!("{first}{second}")), 0));
        }
    }
    for text in ["", "\"\"", "\n", r"\.in-1\"] {
        lines.push(text_question("format", text.as_bytes(), b"|^~\\|", 0));
    }
    lines.push(format(b"\"\"", 3));
    lines
}

/// A byte that is not permitted at each of the five places, and commands between other escapes.
fn delimiters() -> Vec<Bytes> {
    let mut lines = Vec::new();
    for (place, byte) in [(0, b'.'), (1, b'+'), (2, b'-'), (3, b'0'), (4, b' '), (3, b'b')] {
        lines.push(text_question("format", b"a", &changed(&USUAL_DELIMITERS, place, byte), 1));
    }
    for text in ["*.br*a", r"\.br\a", "a*.sk 2*b*H*c*F*", "a@", "*.xx*", "a*.sk201*", "a*"] {
        lines.push(text_question("format", text.as_bytes(), b"#$%*@", 6));
    }
    for text in ["^.sp^a^S^", r"\.br\a", "|", "a^.in-1^"] {
        lines.push(text_question("format", text.as_bytes(), br"\&~^|", 3));
    }
    lines
}

/// Lines that come near a question of this verb.
fn no_questions() -> Vec<Bytes> {
    let near = [
        "", " ", " 41", " 41 7c5e7e5c26", " 41 7c5e7e5c26 2 ", " 41 7c5e7e5c26 2 2",
        " 4 7c5e7e5c26 2", " 41 7c5e7e5c 2", " 41 7c5e7e5c2623 2", " 4A 7C5e7E5c26 02",
        " 41 7c5e7e5c26 -", " 41 7c5e7e5c26 65537", "s 41 7c5e7e5c26 2",
    ];
    let mut lines: Vec<Bytes> =
        near.iter().map(|rest| format!("format{rest}").into_bytes()).collect();
    lines.push(b"FORMAT 41 7c5e7e5c26 2".to_vec());
    lines
}
