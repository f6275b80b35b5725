//! The wide set of the verb `format`: every text of up to four of a dozen items, and of up to three of
//! more, every number about the ends of what a command takes, every byte at each place of a command,
//! words of every length about the width, and the largest buffer.

use super::format_stored::{format, whole, IMPRESSION};
use super::{changed, format_length, latin, text_question, texts, Bytes, USUAL_DELIMITERS};
use crate::ask::{LONGEST_LINE, MOST_ROOM};

/// What brings margins, wrapped lines, 42 and pairs of CR and LF, by few items: behind the skip two
/// bytes fit on a line.
const DOZEN: [&str; 12] = [
    "a", " ", r"\.br\", r"\.sp2\", r"\.sk 198\", r"\.in+4\", r"\.ti 3\", r"\.ce\", r"\.nf\",
    r"\X0D\", r"\X0A\", r"\H\",
];

/// Others, of which some are refused. The numbers stand for words of that many bytes.
const MORE: [&str; 22] = [
    "a", " ", r"\.br\", r"\.sp\", r"\.sp0\", r"\.sk99\", r"\.in100\", r"\.in-100\", r"\.ti100\",
    r"\.ti-1\", r"\.ce\", r"\.fi\", r"\.nf\", r"\X0D0A\", r"\X20\", r"\N\", "100", "197",
    r"\.sk201\", r"\.in\", "|", "\\",
];

pub fn wide() -> Vec<Bytes> {
    let questions = [
        few_items(),
        more_items(),
        numbers(),
        number_forms(),
        every_byte_alone(),
        every_byte_in_a_command(),
        every_two_letters(),
        long_words(),
        parted_words(),
        wrapped_lines(),
        gaps(),
        centred_lines(),
        telling_lines(),
        rooms(),
        every_delimiter(),
    ];
    questions.concat()
}

/// What is as large as a limit.
pub fn limits() -> Vec<Bytes> {
    [largest_buffer(), longest_texts(), sizes()].concat()
}

/// A question for each choice of so many items, with a byte more than it needs; every eighth has one
/// byte too few.
fn choices(items: &[Bytes], count: usize) -> Vec<Bytes> {
    let numbers: Bytes = (0..items.len() as u8).collect();
    let mut lines = Vec::new();
    for (number, choice) in texts(&numbers, count).iter().enumerate() {
        let text: Bytes =
            choice.iter().flat_map(|&item| items[usize::from(item)].iter().copied()).collect();
        let enough = format_length(&text, USUAL_DELIMITERS);
        let room = if number % 8 == 7 { enough.saturating_sub(1) } else { enough + 1 };
        lines.push(format(&text, room));
    }
    lines
}

fn few_items() -> Vec<Bytes> {
    let items = DOZEN.map(latin);
    (0..=4).flat_map(|count| choices(&items, count)).collect()
}

fn more_items() -> Vec<Bytes> {
    let items = MORE.map(|item| match item.parse() {
        Ok(length) => vec![b'x'; length],
        Err(_) => latin(item),
    });
    (0..=3).flat_map(|count| choices(&items, count)).collect()
}

/// Every number about the ends of what a command takes, with each sign, by margins of 0, 1, 100 and
/// 200. With room for a byte, 14 tells from 42.
fn numbers() -> Vec<Bytes> {
    let telling =
        || (0..=11).chain(97..=103).chain(195..=205).chain([255, 256, 257, 300, 456, 999, 1000]);
    let mut lines = Vec::new();
    for number in telling() {
        for sign in ["", "+", "-"] {
            for command in ["sp", "sk"] {
                lines.push(format(format!(r"\.{command}{sign}{number}\a").as_bytes(), 1));
            }
            for margin in [0, 1, 100, 200] {
                for command in ["in", "ti"] {
                    let text = format!(r"\.in{margin}\\.{command} {sign}{number}\");
                    lines.push(format(format!(r"{text}\.br\").as_bytes(), 1));
                    lines.push(format(format!("{text}a").as_bytes(), 1));
                }
            }
        }
    }
    lines.extend((0..=200).map(|number| format(format!(r"\.sk{number}\").as_bytes(), 0)));
    let results = (0..=200).map(|number| format!(r"\.in{number}\\.sp{number}\"));
    lines.extend(results.map(|text| format(text.as_bytes(), 200)));
    lines
}

/// A number in every spelling, and numbers of many digits, which come out as a small one where they are
/// cut to some bits.
fn number_forms() -> Vec<Bytes> {
    let mut forms = Vec::new();
    for blank in ["", " ", "  "] {
        for sign in ["", "+", "-", "+-", "- "] {
            for zeros in [0, 1, 2, 3, 17, 18, 19, 20, 21, 40, 255, 256, 257] {
                let zeros = "0".repeat(zeros);
                for digits in ["", "0", "4", "200", "201"] {
                    forms.push(format!("{blank}{sign}{zeros}{digits}"));
                }
            }
        }
    }
    for power in [8, 15, 16, 24, 31, 32, 33, 62, 63, 64, 65, 126] {
        for near in 0..=8 {
            let number = (1_u128 << power) - 4 + near;
            forms.extend([format!("{number}"), format!("-{number}")]);
        }
    }
    for digits in 1..=45 {
        forms.extend(["1", "2", "3", "9"].map(|digit| digit.repeat(digits)));
        forms.push(format!("4{}", "0".repeat(digits)));
    }
    // Four more than 2^128 and than 2^192.
    forms.push("340282366920938463463374607431768211460".to_string());
    forms.push("6277101735386680763835789423207666416102355444464034512900".to_string());
    let mut lines = Vec::new();
    for form in forms {
        lines.push(format(format!(r"\.sk{form}\a").as_bytes(), 5));
        lines.push(format(format!(r"\.in4\\.ti{form}\a").as_bytes(), 8));
    }
    lines
}

/// Every byte between two letters, as it stands and as a pair of digits, and at the end of a line.
fn every_byte_alone() -> Vec<Bytes> {
    let mut lines = Vec::new();
    for byte in 0..=0xFF {
        lines.push(format(&[b'a', byte, b'b'], 3));
        lines.push(format(format!(r"a\X{byte:02X}\b").as_bytes(), 3));
        lines.push(format(format!(r"a\X{byte:02X}\").as_bytes(), 3));
        lines.push(format(format!(r"a\.sk198\\X{byte:02X}\b").as_bytes(), 4));
    }
    lines
}

/// Every byte in the place of each byte of a command, and between each two.
fn every_byte_in_a_command() -> Vec<Bytes> {
    let mut lines = Vec::new();
    for command in [r"\.br\", r"\.sp 2\", r"\.sk+2\"] {
        let command = command.as_bytes();
        for place in 1..command.len() {
            for byte in 0..=0xFF {
                lines.push(format(&changed(command, place, byte), 2));
                let (before, behind) = command.split_at(place);
                lines.push(format(&[before, &[byte], behind].concat(), 2));
            }
        }
    }
    lines
}

/// Every two small letters as a command, alone and with a number.
fn every_two_letters() -> Vec<Bytes> {
    let letters: Bytes = (b'a'..=b'z').collect();
    let ask = |name: &Bytes| {
        let name = String::from_utf8_lossy(name).into_owned();
        [format(format!(r"\.{name}\").as_bytes(), 3), format(format!(r"\.{name}2\").as_bytes(), 3)]
    };
    texts(&letters, 2).iter().flat_map(ask).collect()
}

fn word(byte: u8, length: usize) -> String {
    char::from(byte).to_string().repeat(length)
}

/// Words of 195 to 205 bytes behind margins and other starts, filled and not; cut by what ends no word,
/// and by what does.
fn long_words() -> Vec<Bytes> {
    let mut lines = Vec::new();
    for length in 195..=205 {
        let whole_word = word(b'x', length);
        for before in
            ["", " ", "y ", r"\.nf\", r"\.ti3\", r"\.sk3\", r"\.ce\", r"\.in3\\.ti-3\", r"\H\"]
        {
            lines.extend(whole(&[&format!("{before}{whole_word}")]));
        }
        for margin in 0..=6 {
            lines.extend(whole(&[&format!(r"\.in{margin}\{whole_word}")]));
        }
        let (first, second) = whole_word.split_at(100);
        for between in [r"\N\", r"\X41\", r"\F\", r"\.fi\", r"\.sk0\", r"\.nf\", r"\X20\", r"\XA0\"]
        {
            lines.extend(whole(&[&format!("{first}{between}{second}")]));
        }
    }
    // Far longer words: a length that is kept in a byte comes round.
    for length in [255, 256, 257, 300, 456, 457, 512, 65_536, 65_736] {
        lines.push(format(word(b'x', length).as_bytes(), 300));
    }
    lines
}

/// A word behind another, parted from it by a command alone, that passes the end once it goes on.
fn parted_words() -> Vec<Bytes> {
    let mut lines = Vec::new();
    for command in [".fi", ".sk0", ".sp0", ".in+4", ".ti0"] {
        for between in [r"\H\", r"\T\", r"\X41\", r"\X20\"] {
            for length in 47..=52 {
                let (first, second, rest) = (word(b'x', 100), word(b'y', 50), word(b'z', length));
                lines.extend(whole(&[&format!(r"{first}\{command}\{second}{between}{rest}")]));
            }
        }
    }
    lines
}

/// Two words and three that fill a line to 198 to 202 bytes, with one blank or more between them, and a
/// margin for the lines behind the first.
fn wrapped_lines() -> Vec<Bytes> {
    let mut lines = Vec::new();
    for total in 198..=202 {
        for blanks in [1, 2, 5] {
            for margin in [0, 4, 150, 151] {
                let first = word(b'x', total - 50 - blanks);
                let (gap, second) = (word(b' ', blanks), word(b'y', 50));
                for (before, behind) in
                    [("", ""), (" ", " z"), (r"\.ti1\", r"\.br\z"), (r"\.nf\", "  ")]
                {
                    let text = format!(r"{before}{first}\.in{margin}\{gap}{second}{behind}");
                    lines.extend(whole(&[&text]));
                }
            }
        }
    }
    let paragraph = "Film reviewed: mild neutrophilia, no blasts seen. ".repeat(30);
    for cut in 0..60 {
        let text = &paragraph[cut..];
        lines.extend(whole(&[text, &format!(r"\.in+7\\.ti-5\{text}\.in-7\\.sp\{}", &text[..205])]));
    }
    lines
}

/// Every place of a gap of up to ten blanks about the end of a line.
fn gaps() -> Vec<Bytes> {
    let mut lines = Vec::new();
    for length in 190..=201 {
        for blanks in 1..=10 {
            let (first, gap) = (word(b'x', length), word(b' ', blanks));
            lines.extend(whole(&[&format!("{first}{gap}yy zz")]));
        }
    }
    lines
}

/// Centred lines of every length about the ends, and their columns kept by `.sp`.
fn centred_lines() -> Vec<Bytes> {
    let mut lines = Vec::new();
    for length in (0..=5).chain(96..=104).chain(194..=202) {
        let line = word(b'x', length);
        for behind in ["", r"\.br\y", " ", " y", r"\.sp\y", r" \.sp2\y", r"\.ce\y", r"\.in2\\.br\y"]
        {
            lines.extend(whole(&[&format!(r"\.ce\{line}{behind}")]));
        }
        for before in
            [r"\.in200\\.ce\", r"\.ce\\.ti9\", r"\.nf\\.ce\", r"\.ce\  ", r"\.ce\\.sk190\"]
        {
            lines.extend(whole(&[&format!("{before}{line}")]));
        }
    }
    lines
}

/// Lines of many things, mostly with little room: what fits is 14 then.
fn telling_lines() -> Vec<Bytes> {
    let impression = IMPRESSION.replace("colitis.", "colitis of the whole descending colon.");
    let mut lines = whole(&[
        &impression,
        r"\.in199\a\.br\b",
        r"\.ce\a\.sk195\b\.sk2\c",
        r"a\.sk198\b",
        r"\.ti2\\.ce\\.ti3\\.sp\a",
        r"ab\X0D\\.sp\\X0A\c",
        r"\.in1\ab\.sp\c\.sp\d\.br\e",
        r"\.in2\\.ti-1\\.nf\a\.fi\\.br\b",
        r"a\X0D\x\X0A\b",
        r"a\X0D\\.sp0\\X0A\b",
        r"a\X0D\\.in0\\X0A\b",
        r"\.in100\\.in100\\.in-200\a",
        "\\.br\\\"\"",
        "\"\"\\.br\\",
        "\\H\\\"\"",
    ]);
    for count in [1, 2, 3, 20, 327, 328, 400] {
        // As many blanks as no line holds, and as many as a number of 16 bits cannot count.
        for rest in ["", r"\.sk136\", r"\.sk56\", r"\.sk55\", " "] {
            let owed = format!("{}{rest}", r"\.sk200\".repeat(count));
            for text in [
                format!("{owed}a"),
                format!(r"\.nf\{owed}a"),
                format!(r"{owed}\.sp\a"),
                format!(r"\.nf\{owed}\.sp\a"),
                format!(r"{owed}\.br\a"),
                format!(r"x{owed}\.in3\a"),
            ] {
                lines.push(format(text.as_bytes(), 6));
            }
        }
    }
    lines
}

/// Every size of buffer for texts of several kinds of lines.
fn rooms() -> Vec<Bytes> {
    let mut lines = Vec::new();
    for text in [
        r"ab \.in2\\.br\cd \.sp2\e\.sk3\f\.br\",
        r"\.ce\ab\.br\\.ce\\.br\c",
        r"\.ti3\\H\a\N\b\X0D0A\\F\\.nf\ c\.br\ ",
        r"\.in3\a\.sk195\bc d\.sk196\e",
    ] {
        let enough = format_length(text.as_bytes(), USUAL_DELIMITERS);
        lines.extend((0..=enough + 2).map(|room| format(text.as_bytes(), room)));
    }
    lines
}

/// Every byte at each of the five places, with a text that has the byte and a command between it.
fn every_delimiter() -> Vec<Bytes> {
    let mut lines = Vec::new();
    for place in 0..5 {
        for byte in 0..=0xFF {
            let delimiters = changed(&USUAL_DELIMITERS, place, byte);
            let text = [b"a", &[byte][..], b".sk2", &[byte], b"b"].concat();
            lines.push(text_question("format", &text, &delimiters, 4));
        }
    }
    lines
}

/// The most that may be lent, filled to the last byte, and one byte short.
fn largest_buffer() -> Vec<Bytes> {
    let room = MOST_ROOM as usize;
    let lines_of_200 = room / 201;
    let behind = room - lines_of_200 * 201;
    let full = format!(r"{}\.br\", word(b'x', 200)).repeat(lines_of_200);
    let ends = r"\.sp200\".repeat(room / 200);
    let mut lines = Vec::new();
    for behind in [behind - 1, behind, behind + 1] {
        lines.push(format(format!("{full}{}", word(b'y', behind)).as_bytes(), room));
    }
    for number in [room % 200, room % 200 + 1] {
        lines.push(format(format!(r"{ends}\.sp{number}\").as_bytes(), room));
    }
    lines.push(format(b"", room));
    lines.push(format(&[br"\.sk200\".repeat(room), b"a".to_vec()].concat()[..room], room));
    lines
}

/// Texts that make a line as long as one may be, or longer than that: of digits, of commands, of words
/// and of faults at the end.
fn longest_texts() -> Vec<Bytes> {
    let longest = (LONGEST_LINE - b"format  7c5e7e5c26 65536".len()) / 2;
    let room = MOST_ROOM as usize;
    let zeros = word(b'0', longest - 8);
    let words = "seven x ".repeat(longest / 8);
    let paragraph = format!("{}{}", "y".repeat(3), " yyy".repeat(longest / 5));
    let mut lines = vec![
        format(format!(r"\.sk{zeros}9\a").as_bytes(), 10),
        format(format!(r"\.in{}1\a", word(b'9', longest - 9)).as_bytes(), 10),
        format(format!(r"\.sk{zeros}").as_bytes(), 10),
        format(words.as_bytes(), room),
        format(&paragraph.as_bytes()[..room], room),
        format(format!(r"\.in+4\{}", &words[..room * 9 / 10]).as_bytes(), room),
        format(&vec![b' '; longest], room),
        format(&vec![b'x'; longest + 2], room),
        format(br"\.br\".repeat(longest / 5).as_slice(), room),
        format(br"\.ce\a ".repeat(600).as_slice(), room),
        format(br"\X0D0A\".repeat(longest / 7).as_slice(), room),
        format(br"\H\".repeat(longest / 3).as_slice(), 0),
    ];
    for fault in ["|", "\\", "\r", r"\.x\", r"\.sk201\"] {
        lines.push(format(format!("{}{fault}", &words[..room - 400]).as_bytes(), room));
    }
    lines
}

/// Texts and lines of sizes at which a program may change its ways, just enough room for them and one
/// byte less, and what is refused at their end.
fn sizes() -> Vec<Bytes> {
    let words = "seven x ".repeat(5_000);
    let mut lines = Vec::new();
    for size in [1_536, 2_048, 6_144, 8_192, 32_768] {
        for length in [size - 1, size, size + 1] {
            let text = &words.as_bytes()[..length];
            let enough = format_length(text, USUAL_DELIMITERS);
            lines.extend([enough, enough - 1].map(|room| format(text, room)));
            // Lines of that many bytes, from few.
            let ends = format!(r"{}\.sp{}\", r"\.sp200\".repeat(length / 200), length % 200);
            lines.extend([length, length - 1].map(|room| format(ends.as_bytes(), room)));
            for fault in ["|", r"\.sk201\"] {
                lines.push(format(format!("{ends}{fault}").as_bytes(), length));
            }
        }
    }
    lines
}
