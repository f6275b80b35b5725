//! The wide set of the verbs `dt` and `tm`: every day of the months of four years, and every offset.

use super::time_stored::question;
use super::Bytes;

pub fn wide() -> Vec<Bytes> {
    [days(), offsets()].concat()
}

/// The days 0 to 32 of the months 0 to 13, in a year of each kind.
fn days() -> Vec<Bytes> {
    let mut lines = Vec::new();
    for year in [1900, 2000, 2023, 2024] {
        for month in 0..=13 {
            for day in 0..=32 {
                lines.push(question("dt", &format!("{year}{month:02}{day:02}")));
            }
        }
    }
    lines
}

/// Every minute from -1559 to +1559 behind an hour.
fn offsets() -> Vec<Bytes> {
    let mut lines = Vec::new();
    for sign in ["+", "-"] {
        for hours in 0..=15 {
            for minutes in 0..=59 {
                lines.push(question("tm", &format!("09{sign}{hours:02}{minutes:02}")));
            }
        }
    }
    lines
}
