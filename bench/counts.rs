//! Instructions that were counted, and what is told of them: beside the baseline's, by the bytes of a
//! message, and without those that are none of an entry point's own.

use crate::jobs::{self, Entry, Job, BEHIND, BRIEF, DOCUMENT, FULL, LARGE, LARGEST, LONG, SMALL};
use std::collections::HashMap;

/// The most instructions, in those of the baseline.
const MOST_RATIO: f64 = 1.0;

/// The most instructions per byte of the largest messages, in those of the small report.
const MOST_GROWTH: f64 = 1.1;

/// Instructions, by side and row.
#[derive(Default)]
pub struct Counts(HashMap<String, u64>);

impl Counts {
    /// A file of lines SIDE ROW INSTRUCTIONS.
    pub fn of_file(file: &str) -> std::io::Result<Counts> {
        let pair = |line: &str| {
            let (name, count) = line.rsplit_once(' ')?;
            Some((name.to_string(), count.parse().ok()?))
        };
        let lines = std::fs::read_to_string(file)?;
        Ok(Counts(lines.lines().filter_map(pair).collect()))
    }

    pub fn get(&self, side: &str, job: &Job) -> Option<u64> {
        self.0.get(&format!("{side} {}", job.row())).copied()
    }

    /// How many times the baseline's instructions the library takes.
    pub fn ratio(&self, job: &Job) -> Option<f64> {
        Some(self.get("library", job)? as f64 / self.get("baseline", job)? as f64)
    }

    fn per_byte(&self, side: &str, job: &Job) -> Option<f64> {
        Some(self.get(side, job)? as f64 / job.measure() as f64)
    }
}

/// The title of a row in a table.
pub fn titled(job: &Job) -> String {
    let document = if job.kind == DOCUMENT { ", a document" } else { "" };
    format!("{}{document}", job.title)
}

/// What the library takes, and for each byte.
pub fn own_cells(job: &Job, counts: &Counts) -> String {
    match (counts.get("library", job), counts.per_byte("library", job)) {
        (Some(ours), Some(each)) => format!("{ours} | {each:.1}"),
        _ => "- | -".to_string(),
    }
}

/// All that is told below the table, where anything was counted.
pub fn tell_of_counts(jobs: &[Job], counts: &Counts) {
    if counts.0.is_empty() {
        return;
    }
    println!();
    tell_dearer(jobs, counts);
    tell_growth(jobs, counts);
    println!();
    tell_without_memcpy(jobs, counts);
    tell_without_reading(jobs, counts);
}

pub fn find_job<'a>(jobs: &'a [Job], title: &str, kind: &str) -> Option<&'a Job> {
    jobs.iter().find(|job| job.title == title && job.kind == kind)
}

/// What takes more than the baseline does.
fn tell_dearer(jobs: &[Job], counts: &Counts) {
    let ratios: Vec<(&Job, f64)> =
        jobs.iter().filter_map(|job| Some((job, counts.ratio(job)?))).collect();
    if ratios.is_empty() {
        return;
    }
    let dearer: Vec<String> = ratios
        .iter()
        .filter(|(_, ratio)| *ratio > MOST_RATIO)
        .map(|(job, ratio)| format!("{} ({}) {ratio:.2}", job.title, job.kind))
        .collect();
    match dearer.len() {
        0 => println!("Over {MOST_RATIO:.2} of the baseline: none of {}", ratios.len()),
        count => println!(
            "Over {MOST_RATIO:.2} of the baseline: {count} of {}: {}",
            ratios.len(),
            dearer.join("; ")
        ),
    }
    println!();
}

/// How many times the instructions per byte of the small report the larger ones take, and in brackets
/// how many times those of its own the baseline does.
fn tell_growth(jobs: &[Job], counts: &Counts) {
    let mut over = Vec::new();
    println!(
        "| Entry point | per byte of 1 KiB | times that: 32 KiB | 1 MiB | 1 MiB, a document |"
    );
    println!("|---|---|---|---|---|");
    for title in jobs::titles(jobs) {
        let each = |side: &str, kind: &str| counts.per_byte(side, find_job(jobs, title, kind)?);
        let growth = |side: &str, kind: &str| Some(each(side, kind)? / each(side, SMALL)?);
        if growth("library", LARGEST).or(growth("library", DOCUMENT)).is_none() {
            continue;
        }
        let cells = [LARGE, LARGEST, DOCUMENT].map(|kind| {
            let ours = growth("library", kind);
            if ours.is_some_and(|ours| ours > MOST_GROWTH) {
                over.push(format!("{title} ({kind})"));
            }
            growth_cell(ours, growth("baseline", kind))
        });
        let small = each("library", SMALL).unwrap_or_default();
        println!("| {title} | {small:.2} | {} |", cells.join(" | "));
    }
    println!();
    match over.len() {
        0 => println!("Over {MOST_GROWTH}: none"),
        _ => println!("Over {MOST_GROWTH}: {}", over.join("; ")),
    }
}

fn growth_cell(ours: Option<f64>, theirs: Option<f64>) -> String {
    let Some(ours) = ours else {
        return "-".to_string();
    };
    let mark = if ours > MOST_GROWTH { "**" } else { "" };
    match theirs {
        Some(theirs) => format!("{mark}{ours:.3}{mark} ({theirs:.3})"),
        None => format!("{mark}{ours:.3}{mark}"),
    }
}

/// A frame is copied, and of a long copy one instruction of memcpy is counted once for each byte.
fn tell_without_memcpy(jobs: &[Job], counts: &Counts) {
    for job in jobs.iter().filter(|job| matches!(job.entry, Entry::Feed(_))) {
        let rest =
            |side: &str| Some(counts.get(side, job)? - counts.get(&format!("{side}-memcpy"), job)?);
        if let (Some(ours), Some(theirs)) = (rest("library"), rest("baseline")) {
            let (title, kind) = (job.title, job.kind);
            println!("{title} ({kind}): {ours} instructions without those of memcpy (baseline: {theirs})");
        }
    }
}

/// A lookup reads the whole message first. What it takes besides should not depend on what stands
/// behind the element.
fn tell_without_reading(jobs: &[Job], counts: &Counts) {
    let lookups = || jobs.iter().filter(|job| matches!(job.entry, Entry::Find(_)));
    let rest = |side: &str, job: &Job| {
        let read = jobs.iter().find(|read| read.entry == Entry::Read && read.bytes == job.bytes)?;
        Some(counts.get(side, job)? as f64 - counts.get(side, read)? as f64)
    };
    for job in lookups() {
        if let (Some(ours), Some(theirs)) = (rest("library", job), rest("baseline", job)) {
            let (title, kind) = (job.title, job.kind);
            println!(
                "{title} ({kind}): {ours} instructions without those of read (baseline: {theirs})"
            );
        }
    }
    let growth = |side: &str, kind: &str| {
        let rest_of = |kind: &str| rest(side, lookups().find(|job| job.kind == kind)?);
        Some(100.0 * (rest_of(kind)? / rest_of(BRIEF)? - 1.0))
    };
    for (kind, place) in [(FULL, "in several segments"), (LONG, "in its own segment")] {
        if let (Some(ours), Some(theirs)) = (growth("library", kind), growth("baseline", kind)) {
            println!("find PV1-2 with {BEHIND} bytes behind it, {place}, in place of 10: {ours:+.2} % instructions without those of read (baseline: {theirs:+.2} %)");
        }
    }
}
