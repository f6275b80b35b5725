//! Lines that are no question of ASK.md, and the lines next to them that are: a word missing or too
//! many, a bad digit, the wrong space. They test how a line is taken apart, and no rule.

use super::{field_question, fresh_question, message, read_question, sound, Bytes, LOOKUPS};
use crate::ask::LONGEST_LINE;
use crate::chance::Chance;

/// No verb here is one that ASK.md has or is likely to get.
pub fn stored() -> Vec<Bytes> {
    let texts = [
        "", " ", "  ", "?", "-", "read", "read ", "read  ", " read -", "read -", "read - ",
        "read  -", "read - -", "read -  -", "read --", "read -0", "read -4d", "read 4d-", "READ -",
        "Read -", "rea -", "reads -", "readx4d", "read-", "read4d", "xyzzy", "xyzzy 4d",
        "xyzzy 4d 4d", "4d", "- read", "4d read", "read 4d 4d", "read 4d 0", "read 4 d", "read 4",
        "read 4d5", "read 4g", "read g4", "read 0x4d", "read 4d,", "read +4", "read 4D",
        "read 4d\r", "read\t4d", "read\t-", "\tread -", "read -\t", "read\r", "\r", "\0",
        "read\0-", "read -\0", "read 4d\0", "\0read -", "read \0\0", "#", "# read -", "read \"\"",
        "read 0", "read 00",
    ];
    let mut lines: Vec<Bytes> = texts.iter().map(|text| text.as_bytes().to_vec()).collect();
    lines.push(b"read \xFF\xFF".to_vec());
    lines.push(b"\xEF\xBB\xBFread -".to_vec());
    lines.extend(digits_of_either_case());
    for byte in (0..=0xFF).filter(|&byte| byte != b'\n') {
        lines.push([b"read", &[byte][..], b"4d"].concat());
        lines.push([b"read ", &[byte][..], b"d"].concat());
        lines.push([b"read 4", &[byte][..]].concat());
    }
    lines.extend(words_of_lookups());
    lines.extend(numbers_of_addresses());
    lines.extend(words_of_a_frame());
    lines.extend(words_of_frames());
    lines
}

/// Each verb of a lookup with each count of words, and with its words and spaces damaged.
fn words_of_lookups() -> Vec<Bytes> {
    let mut lines = Vec::new();
    for verb in LOOKUPS {
        let whole = text(field_question(verb, b"1200"));
        let words: Vec<&str> = whole.split(' ').collect();
        for count in 1..=words.len() {
            lines.push(words[..count].join(" "));
        }
        for behind in [" ", " 0", " 0 0", " -", "\r", "\0"] {
            lines.push(format!("{whole}{behind}"));
        }
        lines.push(format!(" {whole}"));
        lines.push(whole.replacen(' ', "  ", 1));
        lines.push(whole.replacen(' ', "\t", 1));
        lines.push(whole.to_uppercase());
        lines.push(format!("{verb}{whole}"));
        lines.push(format!("{verb} - 0 3 0 0 0"));
        lines.push(format!("{verb} 4 0 3 0 0 0"));
        lines.push(format!("{verb} 4g 0 3 0 0 0"));
        lines.push(format!("{verb} 0 3 0 0 0 {}", words[1]));
        lines.push(format!("{verb} {} {}", words[1], words[1]));
    }
    lines.into_iter().map(String::into_bytes).collect()
}

/// Words that are a number and words that are none, at each place of an address. Some come out as
/// the number that stood there if they are read with a wrap or to the first bad digit only.
fn numbers_of_addresses() -> Vec<Bytes> {
    let telling = [
        "", "-", "+", "-0", "-1", "+0", "+1", "0x1", "1x", "a", "f", "1.0", "1,", "1e0", "0 ",
        "00", "01", "003", "\"1\"", "1\t", "\01", "²", "4294967296", "4294967297", "4294967299",
        "18446744073709551614", "18446744073709551615", "18446744073709551616",
        "18446744073709551617", "18446744073709551619", "28446744073709551615",
        "36893488147419103235", "99999999999999999999", "184467440737095516160",
        "184467440737095516163",
    ];
    let two_to_the_128_and_three = "340282366920938463463374607431768211459";
    let zeros = "0".repeat(70);
    let mut telling = telling.map(str::to_string).to_vec();
    telling.push(two_to_the_128_and_three.to_string());
    telling.push(format!("{zeros}3"));
    telling.push(format!("{zeros}18446744073709551615"));
    telling.push(format!("{zeros}18446744073709551616"));
    let whole = text(field_question("find", b"a"));
    let words: Vec<&str> = whole.split(' ').collect();
    let mut lines = Vec::new();
    for place in 2..words.len() {
        for number in &telling {
            lines.push(with_word(&words, place, number).into_bytes());
        }
    }
    for verb in LOOKUPS {
        for number in ["18446744073709551615", "18446744073709551616", "-1", "03"] {
            let line = text(field_question(verb, b"1200"));
            lines.push(line.replacen(" 3 ", &format!(" {number} "), 1).into_bytes());
        }
    }
    lines
}

/// A `frame` with each count of words, and with each of its words damaged or written otherwise. A
/// number of the state may be any up to 2^64-1; a mode of 2^64 + 1 is none, and not mode 1.
fn words_of_a_frame() -> Vec<Bytes> {
    let whole = "frame 1 1 1 0d0b 2";
    let words: Vec<&str> = whole.split(' ').collect();
    let mut lines = Vec::new();
    for count in 1..words.len() {
        lines.push(words[..count].join(" "));
    }
    for behind in [" ", " 0", " -", "\r", "\0"] {
        lines.push(format!("{whole}{behind}"));
    }
    for place in 1..words.len() {
        for word in ["", "-", "-1", "+1", "x", "1.0", "18446744073709551617"] {
            lines.push(with_word(&words, place, word));
        }
    }
    let telling_numbers =
        ["01", "18446744073709551615", "18446744073709551616", "00000000000000000000001"];
    for place in 1..=3 {
        lines.extend(telling_numbers.iter().map(|number| with_word(&words, place, number)));
    }
    for piece in ["0D0B", "0d0B", "0", "0d0", "0d0g", "--", "-0d", "0d-"] {
        lines.push(with_word(&words, 4, piece));
    }
    for room in ["02", "65537", "65538", "131074", "4294967298", "18446744073709551618"] {
        lines.push(with_word(&words, 5, room));
    }
    lines.extend(["FRAME 1 1 1 0d0b 2", " frame 1 1 1 0d0b 2"].map(str::to_string));
    lines.into_iter().map(String::into_bytes).collect()
}

fn with_word(words: &[&str], place: usize, word: &str) -> String {
    let mut words = words.to_vec();
    words[place] = word;
    words.join(" ")
}

/// Lines that come near a `frames`: one bad piece, the last too, makes the line no question.
fn words_of_frames() -> Vec<Bytes> {
    let near = [
        "", " ", " 2", " 2 ", " -", "  -", " 2  -", " 2 - ", " 2 -  -", " - -", " 0b 2", " 0b41 2",
        " a -", " -1 -", " +2 -", " 2x -", " 65537 -", " 65538 0b41", " 4294967298 -",
        " 18446744073709551615 -", " 18446744073709551618 -", " 2 4", " 2 4g", " 2 0b41 4",
        " 2 0b41 4g", " 2 4 0b41", " 2 0b4 11c0d", " 2 0b 41 1c 0d 0", " 2 0b41 --", " 2 -- 0b41",
        " 2 0b41 -1", " 2 0b,41", " 2 0b41,1c0d", " 2 0b41 1c0d\r", " 2 0b41\t1c0d", " 2\t0b41",
        " 0 0 0 0b41 2", " 02 0B41 1C0d", " 0 00 00 0b41 02", " 00 -", " 2 -", " 2 - -",
        " 2 - - - -", "s 2 -", "2 -", "\t2 -", "-2 -",
    ];
    let mut lines: Vec<String> = near.iter().map(|rest| format!("frames{rest}")).collect();
    lines.extend(["FRAMES 2 -", " frames 2 -", "frame 2 -", "fram 2 -"].map(str::to_string));
    lines.into_iter().map(String::into_bytes).collect()
}

fn text(line: Bytes) -> String {
    String::from_utf8(line).expect("a question is written in ASCII")
}

/// One message in small, in capital and in mixed digits, with a word more and with a digit less.
fn digits_of_either_case() -> Vec<Bytes> {
    let small = read_question(&message(&[r"MSH|^~\&|", "PID|1|Jörg"]));
    let mut capital = small.clone();
    capital[5..].make_ascii_uppercase();
    let mut mixed = small.clone();
    mixed[5..].chunks_mut(2).for_each(|pair| pair[0].make_ascii_uppercase());
    let word_more = [&small[..], b" -"].concat();
    let digit_less = small[..small.len() - 1].to_vec();
    vec![small, capital, mixed, word_more, digit_less]
}

/// A question with damage done to its line, or seldom a line about as long as the line buffer.
pub fn fresh(chance: &mut Chance) -> Bytes {
    if chance.one_in(150) {
        return long_line(chance);
    }
    let mut line = match chance.below(9) {
        0 => b"read -".to_vec(),
        1 => read_question(&sound::random(chance)),
        _ => fresh_question(chance),
    };
    for _ in 0..chance.between(1, 2) {
        let place = match chance.below(4) {
            0 => chance.below(line.len().min(8) + 1),
            1 => line.len() - chance.below(line.len().min(12) + 1),
            2 => line.len(),
            _ => chance.below(line.len() + 1),
        };
        match chance.below(6) {
            0 => line.insert(place, chance.pick(b" \t\r\0-gG0aF\x80\xFFd")),
            1 => line.insert(place, random_byte(chance)),
            2 if place < line.len() => drop(line.remove(place)),
            3 if place < line.len() => line[place] = random_byte(chance),
            4 => line.extend(b" 4d"),
            _ => line.truncate(place),
        }
    }
    line
}

/// Any byte but the one that would end the line.
fn random_byte(chance: &mut Chance) -> u8 {
    let byte = chance.byte();
    if byte == b'\n' {
        b'\r'
    } else {
        byte
    }
}

/// A `read` with an even count of digits is a line of odd length: the longest that fits has one byte
/// less than the line buffer, and the next is `?` for its length alone.
fn long_line(chance: &mut Chance) -> Bytes {
    let mut line = b"read ".to_vec();
    let past = chance.pick(&[1, 1, 3, LONGEST_LINE / 2 + 1]);
    let length = if chance.one_in(2) { LONGEST_LINE - 1 } else { LONGEST_LINE + past };
    line.resize(length, b'4');
    line
}
