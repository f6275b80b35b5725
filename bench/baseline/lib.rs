//! The baseline: framing, reading, finding, judging, acknowledging, escaping, unescaping and
//! formatting as one would write them in Rust for speed, with std alone and no unsafe code. It stands
//! beside the proved library to be measured, has every entry point that the library has, and answers
//! as the model does: bench/check holds it to that.

#![forbid(unsafe_code)]

mod acknowledging;
mod bytes;
mod fields;
mod finding;
mod formatting;
mod frames;
mod reading;
mod structure;
mod text;
mod values;

pub use acknowledging::acknowledge;
pub use bytes::State;
pub use finding::{dt, find, nm, si, tm, ts, Address, Element, Value};
pub use formatting::format;
pub use frames::{feed, Fed, FrameState, Stop};
pub use structure::Names;
pub use text::{escape, unescape};
pub use values::{Number, Time, NOT_SENT};

use reading::Ends;

/// A number of the table, 0 where nothing was refused; its place; the length of what was written.
#[derive(Clone, Copy, Default)]
pub struct Answer {
    pub number: u32,
    pub place: usize,
    pub length: usize,
}

/// Why something is refused, and where.
#[derive(Clone, Copy)]
struct Refusal {
    number: u32,
    place: usize,
}

impl From<Refusal> for Answer {
    fn from(refusal: Refusal) -> Answer {
        Answer { number: refusal.number, place: refusal.place, length: 0 }
    }
}

/// The first fault of a message, or 0 in all. The names that could have stood are kept as a set, and
/// made into names only where somebody asks.
#[derive(Clone, Copy, Default)]
pub struct Verdict {
    pub number: u32,
    pub could_end: bool,
    pub place: usize,
    pub field: usize,
    pub repetition: usize,
    pub names: Names,
}

impl From<Refusal> for Verdict {
    fn from(refusal: Refusal) -> Verdict {
        Verdict { number: refusal.number, place: refusal.place, ..Verdict::default() }
    }
}

/// Numbers 1 to 8. Apart from those who call it, whose numbers would take the registers that the
/// reader's loops want.
#[inline(never)]
pub fn read(message: &[u8]) -> Answer {
    match reading::check(message, |_, _| ()) {
        Ok(()) => Answer::default(),
        Err(refusal) => refusal.into(),
    }
}

/// A reading fault, 20, 21 or 22: the verdict of one who looks into no field.
#[inline]
pub fn structure(message: &[u8]) -> Verdict {
    let mut ends = Ends::new();
    let judged = reading::check_noting(message, &mut ends).map_err(Verdict::from);
    match judged.and_then(structure::judge) {
        Ok(()) => Verdict::default(),
        Err(fault) => fault,
    }
}

/// The names that could have stood at the place of a 21 or 22, by their number from 0, in the
/// grammar's order; 0 past the last.
#[inline]
pub fn could_stand(message: &[u8], index: usize) -> u32 {
    structure(message).names.iter().nth(index).unwrap_or_default()
}

/// A reading fault, 20, 21 or 22, or the first of 31 to 37.
#[inline]
pub fn verdict(message: &[u8]) -> Verdict {
    verdict_with(message, &mut Ends::new())
}

/// The same for one who has to count segments too: of a message that was read, `ends` then has the
/// place of each segment's CR.
#[inline]
fn verdict_with(message: &[u8], ends: &mut Ends) -> Verdict {
    match judge(message, ends) {
        Ok(()) => Verdict::default(),
        Err(fault) => fault,
    }
}

fn judge(message: &[u8], ends: &mut Ends) -> Result<(), Verdict> {
    let segments = reading::check_noting(message, ends)?;
    structure::judge(segments)?;
    fields::judge(segments)
}
