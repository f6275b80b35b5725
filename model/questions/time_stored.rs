//! The stored questions of the verbs `dt`, `tm` and `ts`: the ends of the months of two years, each
//! part at its limits, every length with and without fraction and offset, and damage at every
//! place.

use super::{changed, field_question, latin, Bytes};

/// A time of each type with all that it can hold.
const FULL_DATE: &str = "20240229";
const FULL_TIME_OF_DAY: &str = "093001.0450+1030";
const FULL_TIME_STAMP: &str = "20240229093001.0450+1030";

pub fn stored() -> Vec<Bytes> {
    let questions = [
        days(),
        years(),
        last_days_of_time_stamps(),
        cut_times(),
        clock_limits(),
        fractions(),
        offsets(),
        damaged_offsets(),
        damaged(),
        other_writings(),
    ];
    questions.concat()
}

pub fn question(verb: &str, text: &str) -> Bytes {
    field_question(verb, text.as_bytes())
}

/// The first and the last days of the months 0 to 13, and those beside them, in a leap year and in
/// another. The wide set has every day, of four years.
fn days() -> Vec<Bytes> {
    let mut lines = Vec::new();
    for year in [2023, 2024] {
        for month in 0..=13 {
            for day in [0, 1, 28, 29, 30, 31, 32] {
                lines.push(question("dt", &format!("{year}{month:02}{day:02}")));
            }
        }
    }
    lines
}

/// "Years 0001 to 9999, Gregorian leap rule", alone, with a month, and with a leap day.
fn years() -> Vec<Bytes> {
    let years = [
        "0000", "0001", "0004", "0099", "0100", "0200", "0400", "1600", "1700", "1800", "1899",
        "1900", "1999", "2000", "2023", "2024", "2100", "2400", "9996", "9999",
    ];
    let mut lines = Vec::new();
    for verb in ["dt", "ts"] {
        for year in years {
            lines.push(question(verb, &format!("{year}0229")));
        }
        for year in ["0000", "0001", "9999"] {
            for rest in ["", "01", "12", "13", "0101", "1231", "0228", "1232"] {
                lines.push(question(verb, &format!("{year}{rest}")));
            }
        }
    }
    lines
}

/// The last day of each month and the one behind it, as TS of other lengths.
fn last_days_of_time_stamps() -> Vec<Bytes> {
    let mut lines = Vec::new();
    for (before, days) in [31, 28, 31, 30, 31, 30, 31, 31, 30, 31, 30, 31].iter().enumerate() {
        let month = before + 1;
        for day in [0, *days, days + 1, days + 2] {
            lines.push(question("ts", &format!("2023{month:02}{day:02}")));
            lines.push(question("ts", &format!("2024{month:02}{day:02}1200-0500")));
        }
    }
    for month in ["00", "01", "09", "10", "12", "13", "19", "20", "99"] {
        lines.push(question("ts", &format!("2024{month}")));
        lines.push(question("ts", &format!("2024{month}+0000")));
        lines.push(question("dt", &format!("2024{month}")));
    }
    lines
}

/// Every length of a full time and one digit too many, and an offset behind every length.
fn cut_times() -> Vec<Bytes> {
    let mut lines = Vec::new();
    for (verb, whole) in [
        ("dt", FULL_TIME_STAMP),
        ("tm", FULL_TIME_STAMP),
        ("ts", FULL_TIME_STAMP),
        ("tm", FULL_TIME_OF_DAY),
        ("ts", FULL_TIME_OF_DAY),
        ("tm", "093001+1030"),
        ("ts", "20240229093001+1030"),
    ] {
        for length in 0..=whole.len() {
            lines.push(question(verb, &whole[..length]));
        }
        lines.push(question(verb, &format!("{whole}0")));
    }
    for (verb, digits) in [
        ("ts", "20240229093001.0450"),
        ("tm", "093001.0450"),
        ("dt", FULL_DATE),
        ("ts", "202402290930010"),
        ("tm", "0930010"),
    ] {
        for length in 0..=digits.len() {
            for offset in ["+1030", "-0030"] {
                lines.push(question(verb, &format!("{}{offset}", &digits[..length])));
            }
        }
    }
    lines
}

/// "Hours 00-23, minutes and seconds 00-59", at both ends and past them.
fn clock_limits() -> Vec<Bytes> {
    let mut lines = Vec::new();
    let (hours, minutes) =
        (["00", "09", "10", "19", "20", "23", "24", "29", "99"], ["00", "59", "60", "99"]);
    for (verb, day) in [("tm", ""), ("ts", FULL_DATE)] {
        for hour in hours {
            for rest in ["", "00", "0000"] {
                lines.push(question(verb, &format!("{day}{hour}{rest}")));
            }
        }
        for part in minutes {
            for text in [
                format!("23{part}"),
                format!("23{part}59"),
                format!("2359{part}"),
                format!("2359{part}.9999+1459"),
            ] {
                lines.push(question(verb, &format!("{day}{text}")));
            }
        }
        for text in ["240000", "235960", "235961", "2400", "236000", "240000.0", "235960.0"] {
            lines.push(question(verb, &format!("{day}{text}")));
        }
    }
    lines
}

/// Fractions of none to six digits, behind every length, with and without an offset.
fn fractions() -> Vec<Bytes> {
    let fractions = [
        ".", ".0", ".5", ".05", ".50", ".123", ".005", ".1234", ".0000", ".9999", ".12345",
        ".00000", ".123456", "..5", ".5.", ".+5", ".-5", ". 5", ",5", ".a", ".5a",
    ];
    let mut lines = Vec::new();
    for (verb, time) in [("tm", "093001"), ("ts", "20240229093001")] {
        for fraction in fractions {
            for offset in ["", "-0500"] {
                lines.push(question(verb, &format!("{time}{fraction}{offset}")));
            }
        }
    }
    for (verb, times) in [
        ("dt", &["2024", "202402", "20240229"][..]),
        ("tm", &["", "09", "0930"]),
        ("ts", &["", "2024", "202402", "20240229", "2024022909", "202402290930"]),
    ] {
        for time in times {
            for fraction in [".", ".5", ".1234"] {
                for offset in ["", "+1030"] {
                    lines.push(question(verb, &format!("{time}{fraction}{offset}")));
                }
            }
        }
    }
    lines
}

/// "Offset hours 00-14 and offset minutes 00-59 (house)": every hour from -15 to +15 with its first
/// minute and its last behind an hour, every quarter of an hour behind a year, and the edges. The wide
/// set has every minute.
fn offsets() -> Vec<Bytes> {
    let mut lines = Vec::new();
    for sign in ["+", "-"] {
        for hours in 0..=15 {
            for minutes in [0, 15, 30, 45] {
                lines.push(question("ts", &format!("2024{sign}{hours:02}{minutes:02}")));
            }
            for minutes in [0, 59] {
                lines.push(question("tm", &format!("09{sign}{hours:02}{minutes:02}")));
            }
        }
        for offset in [
            "0000", "0001", "0059", "0060", "0099", "1359", "1360", "1400", "1401", "1459", "1460",
            "1500", "1959", "2000", "2400", "9900", "9999",
        ] {
            lines.push(question("ts", &format!("2024{sign}{offset}")));
            lines.push(question("tm", &format!("09{sign}{offset}")));
        }
    }
    lines
}

/// Offsets of another length or form, and a second one.
fn damaged_offsets() -> Vec<Bytes> {
    let offsets = [
        "+", "-", "+1", "+10", "+100", "+10000", "+100000", "+10:00", "+1000.5", "+1000 ",
        "+ 1000", "++1000", "+-1000", "-+100", "+1000+1000", "+1000-", "1000", "Z", " 1000",
        "+10+0", "+1.00", "+a000", "+100a", "±1000", "/1000", "*1000", ",1000", "+1000^", "^+1000",
        "~1000",
    ];
    let mut lines = Vec::new();
    for offset in offsets {
        for (verb, time) in
            [("ts", "2024"), ("ts", "20240229093001.5"), ("tm", "09"), ("tm", "0930")]
        {
            lines.push(field_question(verb, &latin(&format!("{time}{offset}"))));
        }
    }
    lines
}

/// Another byte at every place of a full time, one byte less, and one more.
fn damaged() -> Vec<Bytes> {
    let mut lines = Vec::new();
    for (verb, whole) in [("dt", FULL_DATE), ("tm", FULL_TIME_OF_DAY), ("ts", FULL_TIME_STAMP)] {
        let whole = whole.as_bytes();
        for place in 0..whole.len() {
            for byte in *b"9+-./:a" {
                lines.push(field_question(verb, &changed(whole, place, byte)));
            }
            lines.push(field_question(verb, &[&whole[..place], &whole[place + 1..]].concat()));
            lines.push(field_question(verb, &[&whole[..place], b"0", &whole[place..]].concat()));
        }
    }
    lines
}

/// Times as others write them, and the samples of the paper.
fn other_writings() -> Vec<Bytes> {
    let texts = [
        "20000229", "19000229", "20050705+1000", "2024-02-29", "29.02.2024", "02/29/2024",
        "240229", "20240229T093001", "20240229 0930", "20240229093001Z", "09:30", "09:30:01", "9",
        "930", "0930 ", " 0930", " 2024", "2024 ", "+2024", "-2024", "+09", "-0930", "\"2024\"",
        "2024^", "^2024", "2024~2024", "2024&", r"2024\X30\", "0x2024", "MMXXIV", "now",
        "20240229^0930", "000000", "00000000", "000000000000", "99999999",
        "20240229235959.9999-1459",
    ];
    let mut lines = Vec::new();
    for verb in ["dt", "tm", "ts"] {
        lines.extend(texts.iter().map(|text| field_question(verb, &latin(text))));
    }
    lines
}
