//! Fresh questions of the verb `format`: random lines of words, blanks and commands with numbers of all
//! kinds, words and skips about as long as a line, whole and damaged, and buffers about as large as is
//! enough.

use super::text_fresh::{damage, damage_delimiters, sequence, telling_byte};
use super::{format_length, sound, text_question, Bytes};
use crate::ask::MOST_ROOM;
use crate::chance::Chance;
use crate::text::Delimiters;

pub fn fresh(chance: &mut Chance) -> Bytes {
    let mut delimiters = sound::random_delimiters(chance);
    let mut text = random(chance, delimiters);
    // Most faults are 12 or 13, which nothing else of the text has to do with.
    for _ in 0..usize::from(chance.one_in(8)) * chance.between(1, 2) {
        damage(chance, &mut text, delimiters);
    }
    let room = random_room(chance, &text, delimiters);
    if chance.one_in(40) {
        damage_delimiters(chance, &mut delimiters);
    }
    text_question("format", &text, &delimiters, room)
}

fn random(chance: &mut Chance, delimiters: Delimiters) -> Bytes {
    let count = match chance.below(40) {
        0 => return chance.pick(&["", "\"\"", "\"", "\"\"\"", " "]).as_bytes().to_vec(),
        1 => chance.between(50, 150),
        2..=15 => chance.between(10, 30),
        _ => chance.below(10),
    };
    // Long words make lines that wrap and few that are short, so a text has either kind.
    let long = chance.one_in(3);
    let mut text = Vec::new();
    if chance.one_in(2) {
        // A margin that can be moved to the left as well.
        text = sequence(delimiters, format!(".in{}", chance.between(5, 40)).as_bytes());
    }
    for _ in 0..count {
        text.extend(piece(chance, delimiters, long));
    }
    text
}

fn piece(chance: &mut Chance, delimiters: Delimiters, long: bool) -> Bytes {
    match chance.below(32) {
        0..=7 if long => long_word(chance, delimiters),
        0..=7 => short_word(chance, delimiters),
        8..=12 => vec![b' '; chance.pick(&[1, 1, 1, 1, 2, 3, 7])],
        13..=18 => sequence(delimiters, plain_command(chance).as_bytes()),
        19..=24 => sequence(delimiters, numbered_command(chance, long).as_bytes()),
        25..=27 => line_end(chance, delimiters),
        28 => sequence(delimiters, &[chance.pick(b"FSRETHNHN")]),
        29 => sequence(delimiters, &[b"X", &byte_digits(chance)[..]].concat()),
        30 => short_word(chance, delimiters),
        _ if chance.one_in(4) => odd_piece(chance, delimiters),
        _ => Vec::new(),
    }
}

fn short_word(chance: &mut Chance, delimiters: Delimiters) -> Bytes {
    let length = chance.between(1, 6);
    let letters = (0..length).map(|_| chance.pick(b"abcXH.br09\"+-\xA0\xE9\xFF|^~\\&"));
    letters.filter(|byte| !delimiters.contains(byte)).collect()
}

/// Words of which one, two or three fill a line, or nearly.
fn long_word(chance: &mut Chance, delimiters: Delimiters) -> Bytes {
    let length = match chance.below(8) {
        0 => chance.between(195, 202),
        1..=2 => chance.between(96, 102),
        3 => chance.between(64, 68),
        4 => chance.between(1, 200),
        _ => chance.between(1, 12),
    };
    let mut word = vec![chance.pick(b"xyz"); length];
    if chance.one_in(6) {
        let highlight = sequence(delimiters, &[chance.pick(b"HN")]);
        let place = chance.below(length + 1);
        word.splice(place..place, highlight);
    }
    word
}

fn plain_command(chance: &mut Chance) -> &'static str {
    chance.pick(&[".br", ".br", ".br", ".ce", ".fi", ".nf", ".sp", "H", "N"])
}

/// A command with a number, mostly one that it takes. Margins are moved further to the right than back,
/// since one below 0 is 42.
fn numbered_command(chance: &mut Chance, long: bool) -> String {
    let command = chance.pick(&["sp", "sk", "sk", "in", "in", "ti"]);
    let minus = match command {
        "in" | "ti" => chance.one_in(3),
        _ => chance.one_in(80),
    };
    let number = match (command, long) {
        _ if chance.one_in(40) => {
            chance.pick(&[0, 199, 200, 201, 256, 1_000, 65_540, 4_294_967_300])
        }
        ("sp", _) => chance.pick(&[0, 1, 1, 2, 2, 3, 4, 20]),
        ("sk", true) => chance.between(0, 200),
        ("sk", false) => chance.between(0, 12),
        _ if minus => chance.between(0, 5),
        (_, true) => chance.between(0, 40),
        _ => chance.between(0, 12),
    };
    let digits = match chance.below(40) {
        0 => "184467440737095516".to_string() + chance.pick(&["15", "16", "17", "20"]),
        1..=2 => "0".repeat(chance.between(1, 25)) + &number.to_string(),
        3 => "0".repeat(chance.between(1, 3)),
        _ => number.to_string(),
    };
    let sign = if minus { "-" } else { chance.pick(&["", "+"]) };
    let blank = if chance.one_in(3) { " " } else { "" };
    format!(".{command}{blank}{sign}{digits}")
}

/// Line ends as a table is sent with, of one sequence or two, and with a highlight between them.
fn line_end(chance: &mut Chance, delimiters: Delimiters) -> Bytes {
    let insides: &[&str] = match chance.below(8) {
        0..=2 => &["X0D0A"],
        3 => &["X0D"],
        4 => &["X0a"],
        5 => &["X0D", "X0A"],
        6 => &["X0d", "N", "X0A"],
        _ => &["X0A0D"],
    };
    insides.iter().flat_map(|inside| sequence(delimiters, inside.as_bytes())).collect()
}

/// One to three pairs of digits, of which some are a blank, CR or LF.
fn byte_digits(chance: &mut Chance) -> Bytes {
    let pairs = chance.between(1, 3);
    let pair = |chance: &mut Chance| match chance.below(3) {
        0 => chance.pick(&["20", "0D", "0a", "A0", "09", "5C", "7c"]).to_string(),
        _ => format!("{:02X}", chance.byte()),
    };
    (0..pairs).flat_map(|_| pair(chance).into_bytes()).collect()
}

/// A command that is none, or a byte that may not stand there.
fn odd_piece(chance: &mut Chance, delimiters: Delimiters) -> Bytes {
    let insides = [
        ".in", ".ti", ".sk", ".sp ", ".sp+", ".br1", ".BR", ".xx", ".nf ", ".sk  1", ".sk+ 1",
        ".in1 ", ".in--1", ".", "", "h", "Z1", "C2842", "X4", ".ce0", ".fi\r",
    ];
    match chance.below(3) {
        0 => vec![telling_byte(chance, delimiters)],
        _ => sequence(delimiters, chance.pick(&insides).as_bytes()),
    }
}

/// Mostly about as much as is enough; or as the text itself is long, none, or more.
fn random_room(chance: &mut Chance, text: &[u8], delimiters: Delimiters) -> usize {
    let enough = format_length(text, delimiters);
    let room = match chance.below(16) {
        0..=6 => enough,
        7..=8 => enough.saturating_sub(1),
        9..=11 => enough + 1,
        12 => chance.below(enough + 1),
        13 => text.len(),
        14 => chance.pick(&[0, 1, 200, 201, 255, 256]),
        _ => enough + chance.below(40),
    };
    room.min(MOST_ROOM as usize)
}
