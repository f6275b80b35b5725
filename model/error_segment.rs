//! ERR: the segment that tells the sender where it hurts, by W4 of document 02. It stands "after MSA
//! when we answer AE or AR", and is "one field of four components, with the sender's separators, none
//! at the end" (W4's ruling 13): "segment ID, sequence, field position, and a code".

use crate::fields;
use crate::reading::{Refusal, COMPONENT_SEPARATOR, CR, FIELD_SEPARATOR};
use crate::structure::{self, Misfit};
use crate::verdict::Fault;

/// The first three components of ERR-1, each as it is written, and with no byte where it is empty.
#[derive(Default)]
struct Place<'a> {
    name: &'a [u8],
    sequence: String,
    field: String,
}

/// ERR with its CR. The message is one whose header is sound: its delimiters are those bytes.
pub fn error_segment(message: &[u8], fault: &Fault) -> Vec<u8> {
    let Place { name, sequence, field } = place_of(message, fault);
    let components = [name, sequence.as_bytes(), field.as_bytes(), code_of(fault).as_bytes()];
    let location = components.join(&message[COMPONENT_SEPARATOR]);
    let fields = [b"ERR", &location[..]].join(&message[FIELD_SEPARATOR]);
    [&fields[..], &[CR]].concat()
}

/// "20 points to field 9 of MSH; for 21 the field position is empty." "For 22 and reading faults the
/// first three components stay empty": there the place is a number of segments or a byte offset, and
/// what could not be read has no segments to be counted.
fn place_of<'a>(message: &'a [u8], fault: &Fault) -> Place<'a> {
    match fault {
        Fault::OfStructure(Misfit { refusal: Refusal { number, place }, .. }) => match number {
            20 => Place { name: b"MSH", sequence: "1".into(), field: "9".into() },
            21 => place_of_segment(message, *place),
            _ => Place::default(),
        },
        Fault::OfField(fault) => place_of_field(message, fault.segment, fault.field),
    }
}

fn place_of_field(message: &[u8], segment: usize, field: usize) -> Place<'_> {
    Place { field: field.to_string(), ..place_of_segment(message, segment) }
}

/// "Sequence counts segments of that name from 1 up to the faulty one", as they were sent (W4's
/// ruling 14).
fn place_of_segment(message: &[u8], segment: usize) -> Place<'_> {
    let names = structure::names_sent(message);
    let name = names[segment];
    let sequence = names[..=segment].iter().filter(|&&sent| sent == name).count();
    Place { name, sequence: sequence.to_string(), field: String::new() }
}

/// "Codes from table 0357." "The code is its identifier alone."
fn code_of(fault: &Fault) -> &'static str {
    match fault {
        Fault::OfStructure(misfit) => match misfit.refusal.number {
            1..=8 => "207",
            20 => "200",
            21 | 22 => "100",
            number => unreachable!("{number} of a structure"),
        },
        Fault::OfField(fault) => code_of_field(fault),
    }
}

/// "101 for 31 and 34, 102 for 32 and 37, 103 for 33 with MSH-11 as 202 and MSH-12 as 203"; "35 is
/// 101 and 36 is 102". MSH is segment 0 and no other.
fn code_of_field(fault: &fields::Fault) -> &'static str {
    match (fault.number, fault.segment, fault.field) {
        (31 | 34 | 35, ..) => "101",
        (32 | 36 | 37, ..) => "102",
        (33, 0, 11) => "202",
        (33, 0, 12) => "203",
        (33, ..) => "103",
        (number, ..) => unreachable!("{number} of a field"),
    }
}
