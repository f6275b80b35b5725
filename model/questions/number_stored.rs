//! The stored questions of the verbs `nm` and `si`: every count of digits with every sign and every
//! place of the point, what comes near a number and is none, and every byte in a number.

use super::{field_question, latin, Bytes};
use crate::reading::allowed;

pub fn stored() -> Vec<Bytes> {
    [digit_counts(), written_numbers(), zeros_and_limits(), sequence_numbers(), every_byte()]
        .concat()
}

/// From 1 to 20 digits with every sign, the point nowhere, at both ends and behind the first digit;
/// and every other place of the point, with a sign where the digits are as many as may be.
fn digit_counts() -> Vec<Bytes> {
    let digits = "12345678901234567890";
    let mut lines = Vec::new();
    for count in 1..=digits.len() {
        let digits = &digits[..count];
        for sign in ["", "+", "-"] {
            lines.push(numeric(&format!("{sign}{digits}")));
            for point in 0..=count {
                if point < 2 || point == count || count == 18 || sign.is_empty() {
                    let (before, behind) = digits.split_at(point);
                    lines.push(numeric(&format!("{sign}{before}.{behind}")));
                }
            }
        }
    }
    lines
}

fn numeric(text: &str) -> Bytes {
    field_question("nm", text.as_bytes())
}

/// What is a number to somebody, and an NM or not.
fn written_numbers() -> Vec<Bytes> {
    let texts = [
        "+", "-", ".", "+.", "-.", "+-1", "-+1", "--1", "++1", "1-", "1+", "1-1", "1+1", "-1-",
        "5.", ".5", "-.5", "+.5", "-5.", "+5.", "5..0", "5.0.0", "..5", "5.+1", "5.-1", "+5.0",
        "-5.0", "+ 5", "- 5", "5.0-", "1e5", "1E5", "1.0e5", " 1", "1 ", "1 0", "  ", "1,5", "1'5",
        "1_5", "1/2", "1:2", "0x1F", "1F", "F", "NaN", "inf", "<5", ">5", "=5", "5%", "$5", "(5)",
        "4.0", "-0.50", "1.5", "-1.5", "0.1", "0.10", "0.100", "00.1", "007", "+007", "-007", "5^",
        "^5", "5&6", "5~6", "5^6", r"5\T\6", r"\X35\", "\"5\"", "5\"\"", "\"\"5", "²", "5é",
    ];
    texts.iter().map(|text| field_question("nm", &latin(text))).collect()
}

/// "-0 is 0", with its decimals; leading zeros count; the largest number of 18 digits, with the
/// nineteenth at either end, and with a fault behind too many digits.
fn zeros_and_limits() -> Vec<Bytes> {
    let mut texts: Vec<String> = ["0", "-0", "+0", "0.0", "-0.0", "-0.00", "+0.00", "00", "-000"]
        .map(str::to_string)
        .to_vec();
    for count in [17, 18, 19, 20] {
        for sign in ["", "+", "-"] {
            let less = count - 1;
            texts.push(format!("{sign}{}", "9".repeat(count)));
            texts.push(format!("{sign}{}", "0".repeat(count)));
            texts.push(format!("{sign}1{}", "0".repeat(less)));
            texts.push(format!("{sign}{}1", "0".repeat(less)));
            texts.push(format!("{sign}0.{}", "9".repeat(less)));
            texts.push(format!("{sign}{}.9", "0".repeat(less)));
            texts.push(format!("{sign}{}.9", "9".repeat(less)));
        }
        let digits = "9".repeat(count);
        for damaged in [
            format!("{digits}."),
            format!(".{digits}"),
            format!("{digits}x"),
            format!("{digits}-"),
            format!(" {digits}"),
            format!("{digits}.0.0"),
            format!("--{digits}"),
        ] {
            texts.push(damaged);
        }
    }
    for edge in ["9223372036854775807", "9223372036854775808", "18446744073709551617"] {
        texts.extend(["", "-"].map(|sign| format!("{sign}{edge}")));
    }
    texts.iter().map(|text| numeric(text)).collect()
}

/// None to six digits, and what comes near.
fn sequence_numbers() -> Vec<Bytes> {
    let texts = [
        "", "0", "00", "000", "0000", "00000", "000000", "1", "01", "001", "0001", "00001", "9",
        "10", "12", "99", "123", "999", "1000", "1234", "4321", "9999", "10000", "12345", "65536",
        "65537", "99999", "123456", "4294967297", "18446744073709551617", "9999999999999999999",
        "+1", "-1", "-0", "+0", "+", "-", ".", "1.", "1.0", ".1", "1-", "+999", "+9999", " 1",
        "1 ", "1 2", "a", "1a", "a1", "12a4", "123a", "0x1", "1e1", "A", "F", "1^2", "1^", "1&2",
        "1~2", "1,2", "\"1\"", "²", "12²", "/", ":", "1/", "1:",
    ];
    texts.iter().map(|text| field_question("si", &latin(text))).collect()
}

/// Every byte that may stand in a message, but CR: between two digits of an NM, and alone as an SI.
fn every_byte() -> Vec<Bytes> {
    let mut lines = Vec::new();
    for byte in (0x20..=0xFF).filter(|&byte| allowed(byte)) {
        lines.push(field_question("nm", &[b'1', byte, b'2']));
        lines.push(field_question("si", &[byte]));
    }
    lines
}
