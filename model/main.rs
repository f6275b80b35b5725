//! The model: an independent implementation of document 01, and of what document 02 adds to it, that
//! is written from the documents alone, and that makes and checks the test vectors of the program
//! `ask`. It shares no code and no table with it.
//!
//!     model stored              prints the questions of the stored vectors, always the same
//!     model wide                prints all questions of some small worlds, too many to be stored, and
//!                               those as large as a limit or as the program holds
//!     model limits              prints those that C answers as the program does
//!     model large               prints those that only C can ask, larger than the program holds
//!     model fresh SEED COUNT    prints COUNT random questions, the same for the same seed
//!     model answer              answers questions from standard input, one line for each
//!     model answer large        answers them as C is answered, without the limits of the program

mod acknowledgement;
mod ask;
mod chance;
mod element;
mod error_segment;
mod fields;
mod formatting;
mod frames;
mod hex;
mod numbers;
mod questions;
mod reading;
mod structure;
mod text;
mod times;
mod verdict;

use ask::Asker;
use chance::Chance;
use std::io::{self, BufRead, BufWriter, Write};
use std::process::ExitCode;

fn main() -> ExitCode {
    let words: Vec<String> = std::env::args().skip(1).collect();
    let words: Vec<&str> = words.iter().map(String::as_str).collect();
    let done = match words[..] {
        ["stored"] => print_stored(),
        ["wide"] => print_lines(questions::wide()),
        ["limits"] => print_lines(questions::limits()),
        ["large"] => print_lines(questions::large()),
        ["fresh", seed, count] => match (seed.parse(), count.parse()) {
            (Ok(seed), Ok(count)) => print_fresh(seed, count),
            _ => return usage(),
        },
        ["answer"] => print_answers(ask::PROGRAM),
        ["answer", "large"] => print_answers(ask::FROM_C),
        _ => return usage(),
    };
    // Only the input or the output can have failed, and then there is nobody left to tell.
    if done.is_ok() {
        ExitCode::SUCCESS
    } else {
        ExitCode::FAILURE
    }
}

fn usage() -> ExitCode {
    eprintln!("usage: model stored | wide | limits | large | fresh SEED COUNT | answer [large]");
    ExitCode::from(2)
}

/// The last line goes without its LF, so that the vectors also hold a line that only the end of the
/// input ends.
fn print_stored() -> io::Result<()> {
    let mut out = BufWriter::new(io::stdout().lock());
    out.write_all(&questions::stored().join(&b'\n'))?;
    out.flush()
}

fn print_lines(lines: Vec<Vec<u8>>) -> io::Result<()> {
    let mut out = BufWriter::new(io::stdout().lock());
    for line in lines {
        out.write_all(&line)?;
        out.write_all(b"\n")?;
    }
    out.flush()
}

fn print_fresh(seed: u64, count: usize) -> io::Result<()> {
    let mut out = BufWriter::new(io::stdout().lock());
    let mut chance = Chance::of_seed(seed);
    for _ in 0..count {
        out.write_all(&questions::fresh(&mut chance))?;
        out.write_all(b"\n")?;
    }
    out.flush()
}

fn print_answers(asker: Asker) -> io::Result<()> {
    let mut input = io::stdin().lock();
    let mut out = BufWriter::new(io::stdout().lock());
    let mut line = Vec::new();
    while input.read_until(b'\n', &mut line)? > 0 {
        if line.last() == Some(&b'\n') {
            line.pop();
        }
        writeln!(out, "{}", asker.answer(&line))?;
        line.clear();
    }
    out.flush()
}
