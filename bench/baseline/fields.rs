//! What the fields of a message hold, by the table of those that are judged: numbers 31 to 37. A
//! segment's bytes are passed over once, up to the last field that is judged.

use crate::bytes::{before, find_far, marks_of, split_once, state_of, Delimiters, State};
use crate::bytes::{COMPONENT, FIELD, REPETITION};
use crate::reading::{name, Segments, LONGEST_ID};
use crate::values::{fault_of_nm, is_dt, is_si, is_tm, is_ts};
use crate::Verdict;
use Kind::{
    Any, AsValueType, Codes, Dt, Id, Nm, Processing, Sex, Si, Statuses, Tm, Ts, ValueTypes, Version,
};
use Portion::{First, Whole};

#[derive(Clone, Copy, PartialEq)]
enum Kind {
    Any,
    AsValueType,
    Codes,
    Dt,
    Id,
    Nm,
    Processing,
    Sex,
    Si,
    Statuses,
    Tm,
    Ts,
    ValueTypes,
    Version,
}

/// What of a repetition is judged: the whole, or its first component.
#[derive(Clone, Copy, PartialEq)]
enum Portion {
    Whole,
    First,
}

struct Row {
    field: usize,
    portion: Portion,
    kind: Kind,
    required: bool,
    repeats: bool,
}

const fn row(field: usize, portion: Portion, kind: Kind, required: bool, repeats: bool) -> Row {
    Row { field, portion, kind, required, repeats }
}

/// The rows of a segment, by its name, with rising fields.
static HEADER: [Row; 4] = [
    row(7, First, Ts, true, false),
    row(10, Whole, Id, true, false),
    row(11, First, Processing, true, false),
    row(12, First, Version, true, false),
];
static PATIENT: [Row; 4] = [
    row(3, Whole, Any, true, true),
    row(5, Whole, Any, true, true),
    row(7, First, Ts, false, false),
    row(8, Whole, Sex, false, false),
];
static ORDER: [Row; 1] = [row(1, Whole, Si, false, false)];
static RESULT: [Row; 6] = [
    row(1, Whole, Si, false, false),
    row(2, Whole, ValueTypes, false, false),
    row(3, Whole, Any, true, false),
    row(5, Whole, AsValueType, false, true),
    row(11, Whole, Statuses, true, false),
    row(14, First, Ts, false, false),
];
static ANSWER: [Row; 1] = [row(1, Whole, Codes, true, false)];

const MSH: u32 = name(b"MSH");
const PID: u32 = name(b"PID");
const OBR: u32 = name(b"OBR");
const OBX: u32 = name(b"OBX");
const MSA: u32 = name(b"MSA");

pub fn judge(segments: Segments) -> Result<(), Verdict> {
    let delimiters = segments.delimiters();
    for (number, segment) in segments.iter().enumerate() {
        let found = match name(segment) {
            // MSH-1 is the separator itself, so MSH-2 is the first part behind a separator.
            MSH => judge_segment(segment, 1, &HEADER, &delimiters),
            PID => judge_segment(segment, 0, &PATIENT, &delimiters),
            OBR => judge_segment(segment, 0, &ORDER, &delimiters),
            OBX => judge_segment(segment, 0, &RESULT, &delimiters),
            MSA => judge_segment(segment, 0, &ANSWER, &delimiters),
            _ => Ok(()),
        };
        if let Err(fault) = found {
            return Err(Verdict { place: number, ..fault });
        }
    }
    Ok(())
}

/// Where the parts of a segment end, up to the one of the index `last`; those that are absent end where
/// the segment does. In a short segment separators are marked eight bytes at a time, and each mark is an
/// end; in a long one they are sought one by one, by blocks.
#[inline(always)]
fn ends_of(segment: &[u8], separator: u8, last: usize) -> Ends {
    let mut ends = [segment.len() as u32; MOST_ENDS];
    if segment.len() > SHORT {
        let mut start = 0;
        for end in &mut ends[..=last] {
            let Some(at) = find_far::<32>(&segment[start..], separator) else { break };
            *end = (start + at) as u32;
            start += at + 1;
        }
        return ends;
    }
    let mut count = 0;
    let mut place = 0;
    let mut words = segment.chunks_exact(8);
    for word in &mut words {
        let mut marks = marks_of(word, separator);
        while marks != 0 && count < MOST_ENDS {
            ends[count] = place + marks.trailing_zeros() / 8;
            count += 1;
            marks &= marks - 1;
        }
        place += 8;
        if last < count {
            return ends;
        }
    }
    for &byte in words.remainder() {
        if byte == separator && count < MOST_ENDS {
            ends[count] = place;
            count += 1;
        }
        place += 1;
    }
    ends
}

/// The last field that is judged is OBX-14.
const MOST_ENDS: usize = 16;
type Ends = [u32; MOST_ENDS];

/// So many bytes are marked in a segment, and in a longer one they are sought by blocks.
const SHORT: usize = 512;

/// A fault but for its segment. `field` is the number of what stands before the first separator.
#[inline(always)]
fn judge_segment(
    segment: &[u8],
    field: usize,
    rows: &[Row],
    delimiters: &Delimiters,
) -> Result<(), Verdict> {
    let mut value_type: &[u8] = b"";
    let last = rows.last().map_or(0, |row| row.field - field);
    let ends = ends_of(segment, delimiters[FIELD], last);
    for row in rows {
        let index = row.field - field;
        // Behind the last field all are absent, which is judged as no bytes.
        let bytes = segment.get(ends[index - 1] as usize + 1..ends[index] as usize).unwrap_or(b"");
        if row.kind == ValueTypes {
            value_type = bytes;
        }
        judge_row(row, bytes, value_type, delimiters).map_err(|(number, repetition)| Verdict {
            number,
            field: row.field,
            repetition,
            ..Verdict::default()
        })?;
    }
    Ok(())
}

/// A number and a repetition. First 31 or 34, then 36, then 35, then the repetitions in turn.
#[inline(always)]
fn judge_row(
    row: &Row,
    field: &[u8],
    value_type: &[u8],
    delimiters: &Delimiters,
) -> Result<(), (u32, usize)> {
    if field.is_empty() {
        return if row.required { Err((31, 1)) } else { Ok(()) };
    }
    if row.kind == AsValueType {
        return judge_value(field, value_type, delimiters);
    }
    // No delimiter can stand in a value of a form, so a field that has it as a whole is one
    // repetition, and present.
    if is_formed(row.kind) && fault_of(row.kind, field) == 0 {
        return Ok(());
    }
    let (first, rest) = split_once(field, delimiters[REPETITION]);
    let part = portion_of(first, row.portion, delimiters);
    match state_of(part, delimiters) {
        State::Empty if row.required => return Err((31, 1)),
        State::Null if row.required => return Err((34, 1)),
        State::Empty | State::Null if rest.is_some() && !row.repeats => return Err((36, 1)),
        State::Empty | State::Null => return Ok(()),
        State::Present => {}
    }
    // The fields that may repeat here, PID-3 and PID-5, hold anything.
    if rest.is_some() && !row.repeats {
        return Err((36, 1));
    }
    match fault_of(row.kind, part) {
        0 => Ok(()),
        number => Err((number, 1)),
    }
}

/// Whether the values of a kind have a form or a list.
#[inline(always)]
fn is_formed(kind: Kind) -> bool {
    !matches!(kind, Any | AsValueType | Id)
}

/// OBX-5, by what OBX-2 says. OBX-2 has been judged: it is one listed type, or not present.
fn judge_value(
    field: &[u8],
    value_type: &[u8],
    delimiters: &Delimiters,
) -> Result<(), (u32, usize)> {
    let (portion, kind) = match value_type {
        b"NM" => (Whole, Nm),
        b"DT" => (Whole, Dt),
        b"TM" => (Whole, Tm),
        b"TS" => (First, Ts),
        _ if state_of(value_type, delimiters) == State::Present => return Ok(()),
        _ => (Whole, Any),
    };
    if kind != Any && fault_of(kind, field) == 0 {
        return Ok(());
    }
    let mut rest = Some(field);
    let mut number = 1;
    while let Some(left) = rest {
        let repetition;
        (repetition, rest) = split_once(left, delimiters[REPETITION]);
        let part = portion_of(repetition, portion, delimiters);
        if state_of(part, delimiters) == State::Present {
            if kind == Any {
                return Err((35, 1));
            }
            match fault_of(kind, part) {
                0 => {}
                fault => return Err((fault, number)),
            }
        }
        number += 1;
    }
    Ok(())
}

#[inline(always)]
fn portion_of<'a>(repetition: &'a [u8], portion: Portion, delimiters: &Delimiters) -> &'a [u8] {
    match portion {
        Whole => repetition,
        First => before(repetition, delimiters[COMPONENT]),
    }
}

/// The number of what is wrong with a part that is present, or 0.
#[inline(always)]
fn fault_of(kind: Kind, part: &[u8]) -> u32 {
    let (sound, number) = match kind {
        Any | AsValueType => (true, 0),
        Nm => return fault_of_nm(part),
        Id => (part.len() <= LONGEST_ID, 37),
        Dt => (is_dt(part), 32),
        Si => (is_si(part), 32),
        Tm => (is_tm(part), 32),
        Ts => (is_ts(part), 32),
        Codes => (matches!(part, b"AA" | b"AE" | b"AR"), 33),
        Processing => (matches!(part, b"D" | b"P" | b"T"), 33),
        Sex => (matches!(part, b"M" | b"F" | b"O" | b"U"), 33),
        Statuses => (
            matches!(
                part,
                b"C" | b"D" | b"F" | b"I" | b"N" | b"O" | b"P" | b"R" | b"S" | b"U" | b"W" | b"X"
            ),
            33,
        ),
        ValueTypes => (
            matches!(
                part,
                b"CE"
                    | b"DT"
                    | b"ED"
                    | b"FT"
                    | b"NM"
                    | b"RP"
                    | b"SN"
                    | b"ST"
                    | b"TM"
                    | b"TS"
                    | b"TX"
            ),
            33,
        ),
        Version => (part == b"2.4", 33),
    };
    if sound {
        0
    } else {
        number
    }
}
