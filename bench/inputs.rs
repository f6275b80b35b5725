//! What is measured, for one who calls the library in a program of its own: on a machine that cannot run
//! it, or beside another library.
//!
//!     inputs rows            all of it, a line ENTRY ROW ANSWER NUMBER .. for each: the function's name,
//!                            the row's, the number that it is answered by, and the numbers that it is
//!                            called with besides bytes and delimiters
//!     inputs bytes ROW       the bytes that it is called on
//!     inputs table COUNTS    prints what was counted of the library alone; COUNTS is a file of lines
//!                            library ROW INSTRUCTIONS

mod counts;
mod jobs;
mod reports;

use baseline::Address;
use counts::{own_cells, tell_of_counts, titled, Counts};
use jobs::{Entry, LAST_NAME};
use std::io::{self, Write};
use std::process::ExitCode;

fn main() -> ExitCode {
    let words: Vec<String> = std::env::args().skip(1).collect();
    let words: Vec<&str> = words.iter().map(String::as_str).collect();
    let done = match words[..] {
        ["rows"] => print_rows(),
        ["bytes", row] => write_bytes(row),
        ["table", file] => table(file),
        _ => {
            eprintln!("usage: inputs rows | inputs bytes ROW | inputs table COUNTS");
            return ExitCode::from(2);
        }
    };
    match done {
        Ok(()) => ExitCode::SUCCESS,
        Err(fault) => {
            eprintln!("inputs {}: {fault}", words.join(" "));
            ExitCode::FAILURE
        }
    }
}

fn print_rows() -> io::Result<()> {
    for job in jobs::all() {
        let numbers: Vec<String> = numbers(job.entry).iter().map(usize::to_string).collect();
        let (entry, row, answer) = (job.entry.name(), job.row(), job.number());
        println!("{entry} {row} {answer} {}", numbers.join(" "));
    }
    Ok(())
}

/// An index, the most bytes of a piece, or an address.
fn numbers(entry: Entry) -> Vec<usize> {
    match entry {
        Entry::CouldStand => vec![LAST_NAME],
        Entry::Feed(most) => vec![most],
        Entry::Find(address)
        | Entry::Nm(address)
        | Entry::Si(address)
        | Entry::Dt(address)
        | Entry::Tm(address)
        | Entry::Ts(address) => {
            let Address { segment, field, repetition, component, subcomponent } = address;
            vec![segment, field, repetition, component, subcomponent]
        }
        _ => Vec::new(),
    }
}

fn write_bytes(row: &str) -> io::Result<()> {
    let job = jobs::one(row).ok_or(io::ErrorKind::NotFound)?;
    io::stdout().write_all(&job.bytes)
}

fn table(file: &str) -> io::Result<()> {
    let (jobs, counts) = (jobs::all(), Counts::of_file(file)?);
    println!("| Entry point | Bytes | Instructions | per byte |");
    println!("|---|---|---|---|");
    for job in &jobs {
        println!("| {} | {} | {} |", titled(job), job.length(), own_cells(job, &counts));
    }
    tell_of_counts(&jobs, &counts);
    Ok(())
}
