//! Measures the library beside the baseline on the same bytes. Both give the same answers first.
//!
//!     harness once SIDE ROW      calls one function once, for a counter of instructions, or once for
//!                                each piece of a line
//!     harness rows               all that is measured, a line SIDE ENTRY ROW for each
//!     harness table [COUNTS]     times all in turns and prints the table; COUNTS is a file of lines
//!                                SIDE ROW INSTRUCTIONS, where SIDE-memcpy has those of libc's memcpy
//!                                among them
//!     harness time ROW ..        prints the microseconds of one call of the library, a line for each
//!     harness stack              prints how deep the library goes into the stack; fails where that
//!                                grows with the message

mod calls;
mod counts;
mod jobs;
mod library;
mod reports;
mod stack;

use calls::Side;
use counts::{find_job, own_cells, tell_of_counts, titled, Counts};
use jobs::{Job, DOCUMENT, LARGE, LARGEST, ROOM, SMALL};
use std::hint::black_box;
use std::process::ExitCode;
use std::time::Instant;

/// By so many bytes of stack two ways through the same code may differ.
const STACK_SLACK: usize = 256;

fn main() -> ExitCode {
    let words: Vec<String> = std::env::args().skip(1).collect();
    let words: Vec<&str> = words.iter().map(String::as_str).collect();
    match words[..] {
        ["rows"] => print_rows(),
        ["once", side, row] => return call_once(side, row),
        ["table"] => return table(&jobs::all(), &Counts::default()),
        ["table", file] => match Counts::of_file(file) {
            Ok(counts) => return table(&jobs::all(), &counts),
            Err(fault) => {
                eprintln!("{file}: {fault}");
                return ExitCode::FAILURE;
            }
        },
        ["time", ref rows @ ..] => return print_times(rows),
        ["stack"] => return stacks(&jobs::all()),
        _ => {
            eprintln!("usage: harness once SIDE ROW | rows | table [COUNTS] | time ROW .. | stack");
            return ExitCode::from(2);
        }
    }
    ExitCode::SUCCESS
}

fn print_rows() {
    for job in jobs::all() {
        println!("library {} {}", job.entry.name(), job.row());
        if job.entry.has_baseline() {
            println!("baseline {} {}", job.entry.name(), job.row());
        }
    }
}

fn call_once(side: &str, row: &str) -> ExitCode {
    let side = if side == "library" { Side::Library } else { Side::Baseline };
    let Some(job) = jobs::one(row) else {
        return ExitCode::FAILURE;
    };
    let mut buffer = vec![0; ROOM];
    black_box(job.call(side, &mut buffer));
    ExitCode::SUCCESS
}

/// Nothing is timed that both sides do not answer alike.
fn table(jobs: &[Job], counts: &Counts) -> ExitCode {
    for job in jobs {
        if !job.is_answered() {
            eprintln!("{}: not answered alike, or not as meant", job.row());
            return ExitCode::FAILURE;
        }
    }
    println!("| Entry point | Bytes | Instructions | per byte | baseline | ratio | µs | baseline | ratio |");
    println!("|---|---|---|---|---|---|---|---|---|");
    let mut ratios = Vec::new();
    for job in jobs {
        let (ours, theirs) = times(job);
        ratios.push((job.title, counts.ratio(job), theirs.map(|theirs| ours / theirs)));
        let (title, bytes) = (titled(job), job.length());
        let (instructions, times) = (instruction_cells(job, counts), time_cells(ours, theirs));
        println!("| {title} | {bytes} | {instructions} | {times} |");
    }
    println!();
    tell_ranges(jobs, &ratios);
    tell_of_counts(jobs, counts);
    ExitCode::SUCCESS
}

/// The title of a row, and how many times the baseline's instructions and time it takes.
type Ratios = (&'static str, Option<f64>, Option<f64>);

/// The least and the most of each title, over its kinds.
fn tell_ranges(jobs: &[Job], ratios: &[Ratios]) {
    let range = |title: &str, ratio: fn(&Ratios) -> Option<f64>| {
        let of_title = ratios.iter().filter(|row| row.0 == title).filter_map(ratio);
        let (least, most) = of_title.fold((f64::INFINITY, 0.0_f64), |(least, most), ratio| {
            (least.min(ratio), most.max(ratio))
        });
        match least > most {
            true => "-".to_string(),
            false => format!("{least:.2} to {most:.2}"),
        }
    };
    println!("| Entry point | instructions, in the baseline's | time, in the baseline's |");
    println!("|---|---|---|");
    for title in jobs::titles(jobs) {
        let (instructions, time) = (range(title, |row| row.1), range(title, |row| row.2));
        println!("| {title} | {instructions} | {time} |");
    }
}

fn instruction_cells(job: &Job, counts: &Counts) -> String {
    let own = own_cells(job, counts);
    match (counts.get("baseline", job), counts.ratio(job)) {
        (Some(theirs), Some(ratio)) => format!("{own} | {theirs} | {ratio:.2}"),
        _ => format!("{own} | - | -"),
    }
}

fn print_times(rows: &[&str]) -> ExitCode {
    for row in rows {
        let Some(job) = jobs::one(row).filter(Job::is_answered) else {
            eprintln!("{row}: no such row, or not answered alike");
            return ExitCode::FAILURE;
        };
        println!("{row} {:.2}", times(&job).0 / 1000.0);
    }
    ExitCode::SUCCESS
}

/// Nanoseconds of both sides in microseconds.
fn time_cells(ours: f64, theirs: Option<f64>) -> String {
    match theirs {
        Some(theirs) => {
            format!("{:.2} | {:.2} | {:.2}", ours / 1000.0, theirs / 1000.0, ours / theirs)
        }
        None => format!("{:.2} | - | -", ours / 1000.0),
    }
}

/// How deep the library goes into the stack, with some hundred bytes of the one who calls it.
fn stacks(jobs: &[Job]) -> ExitCode {
    let mut grown = false;
    println!("| Bytes of stack | 1 KiB | 32 KiB | 1 MiB | 1 MiB, a document |");
    println!("|---|---|---|---|---|");
    for title in jobs::titles(jobs) {
        let depths = [SMALL, LARGE, LARGEST, DOCUMENT]
            .map(|kind| find_job(jobs, title, kind).and_then(stack_of));
        let [Some(small), _, largest, document] = depths else {
            continue;
        };
        let Some(most) = largest.max(document) else {
            continue;
        };
        grown |= most > small + STACK_SLACK;
        let cells = depths.map(|depth| depth.map_or("-".to_string(), |depth| depth.to_string()));
        println!("| {title} | {} |", cells.join(" | "));
    }
    if grown {
        eprintln!("the stack grows with the message");
        return ExitCode::FAILURE;
    }
    ExitCode::SUCCESS
}

fn stack_of(job: &Job) -> Option<usize> {
    let mut buffer = vec![0; ROOM];
    // The functions of libc are bound by a first call.
    black_box(job.call(Side::Library, &mut buffer));
    stack::depth(&mut || {
        black_box(job.call(Side::Library, &mut buffer));
    })
}

/// Nanoseconds of one call of each side, the median of many samples that are taken in turns, so that
/// whatever slows the machine down slows both. Of the longest calls there are fewer.
fn times(job: &Job) -> (f64, Option<f64>) {
    const SAMPLE: f64 = 40_000.0;
    let samples = if job.length() > 100_000 { 101 } else { 1_001 };
    let sides = match job.entry.has_baseline() {
        true => vec![Side::Library, Side::Baseline],
        false => vec![Side::Library],
    };
    let mut buffer = vec![0; ROOM];
    // Warm first, and as many calls to a sample as make it long beside the clock's own time.
    sample(job, Side::Library, 20, &mut buffer);
    let calls: Vec<usize> = sides
        .iter()
        .map(|&side| 1 + (SAMPLE / sample(job, side, 20, &mut buffer)) as usize)
        .collect();
    let mut taken = vec![Vec::new(); sides.len()];
    for _ in 0..samples {
        for (number, &side) in sides.iter().enumerate() {
            taken[number].push(sample(job, side, calls[number], &mut buffer));
        }
    }
    let mut medians = taken.into_iter().map(median);
    (medians.next().unwrap_or_default(), medians.next())
}

/// Nanoseconds of one call, by so many.
fn sample(job: &Job, side: Side, calls: usize, buffer: &mut [u8]) -> f64 {
    let start = Instant::now();
    for _ in 0..calls {
        black_box(job.call(side, buffer));
    }
    start.elapsed().as_nanos() as f64 / calls as f64
}

fn median(mut samples: Vec<f64>) -> f64 {
    samples.sort_by(f64::total_cmp);
    samples[samples.len() / 2]
}
