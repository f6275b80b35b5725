//! The acknowledgement: what is sent back for a message, by document 01's chapter of that name, with
//! its letter by W2 of document 02, and ERR by W4 where it is not AA. "Acknowledging: 16, 17, 9, 10."
//! The place of each is 0.

use crate::element::{self, Address, Element, State};
use crate::error_segment::error_segment;
use crate::reading::{self, refuse, Refusal, COMPONENT_SEPARATOR, CR, FIELD_SEPARATOR};
use crate::reading::{LONGEST_ID, LONGEST_MESSAGE, SUBCOMPONENT_SEPARATOR};
use crate::text::{self, Delimiters};
use crate::times;
use crate::verdict::{self, Fault};

/// The acknowledgement of a message, with the time and the ID that the caller gives it. A fault
/// behind the header is no refusal here, but told by the code (ruling 25).
pub fn acknowledge(
    message: &[u8],
    time: &[u8],
    id: &[u8],
    room: usize,
) -> Result<Vec<u8>, Refusal> {
    check_time(time)?;
    check_id(id)?;
    let header = header_of(message)?;
    check_header(header)?;
    let verdict = verdict::judge(message);
    let mut acknowledgement = header_back(header, time, id)?;
    acknowledgement.extend(answer_back(header, code_of(&verdict))?);
    // "An ERR segment after MSA when we answer AE or AR" (W4).
    if let Err(fault) = &verdict {
        acknowledgement.extend(error_segment(message, fault));
    }
    check_room(acknowledgement, room)
}

/// 16: "caller's time isn't TS", as it stands (ruling 28).
fn check_time(time: &[u8]) -> Result<(), Refusal> {
    if times::time_stamp(time).is_err() {
        return refuse(16, 0);
    }
    Ok(())
}

/// 17: "caller's ID not 1 to 199 bytes", of the bytes handed in (ruling 27): "an ID of 199 NULs is
/// written in 995 bytes" (W6's ruling 20).
fn check_id(id: &[u8]) -> Result<(), Refusal> {
    if id.is_empty() || id.len() > LONGEST_ID {
        return refuse(17, 0);
    }
    Ok(())
}

/// 9: "the header (through the first CR) is missing that CR or has fault 1 to 4 itself", judged as
/// bytes of its own (ruling 25). It ends with a CR and is one segment: no other fault is possible.
fn header_of(message: &[u8]) -> Result<&[u8], Refusal> {
    let Some(end) = message.iter().position(|&byte| byte == CR) else {
        return refuse(9, 0);
    };
    let header = &message[..=end];
    if reading::read(header).is_err() {
        return refuse(9, 0);
    }
    Ok(header)
}

/// 9: "type ACK; MSH-10, the whole field, not present or over 199 bytes". 'Type ACK' is component 1
/// of repetition 1 (ruling 18).
fn check_header(header: &[u8]) -> Result<(), Refusal> {
    let kind = find(header, 9, 1, 1)?;
    let id = find(header, 10, 0, 0)?;
    if &header[kind.part] == b"ACK" || id.state != State::Present || id.part.len() > LONGEST_ID {
        return refuse(9, 0);
    }
    Ok(())
}

/// "Code AA exactly when reading, structure and fields all accept"; document 02 tells the others
/// apart. "Where several faults stand, the first in the judges' order decides the letter" (W2).
fn code_of(verdict: &Result<(), Fault>) -> &'static [u8] {
    match verdict {
        Ok(()) => b"AA",
        Err(fault) if rejects(fault) => b"AR",
        Err(_) => b"AE",
    }
}

/// "An unsupported type (20), or MSH-11 or MSH-12 outside its list (33), is AR; the rest stays AE"
/// (W2). "AR only for 20, and for 33 at MSH-11 or MSH-12; 31, 34 and 36 there are AE" (W2's ruling
/// 12). MSH is segment 0 and no other.
fn rejects(fault: &Fault) -> bool {
    match fault {
        Fault::OfStructure(misfit) => misfit.refusal.number == 20,
        Fault::OfField(fault) => {
            fault.number == 33 && fault.segment == 0 && matches!(fault.field, 11 | 12)
        }
    }
}

/// 10: "acknowledgement longer than the buffer or 1,048,576", which "now counts the ERR bytes"
/// (W4): it is never written without its ERR to make it fit (W4's ruling 16).
fn check_room(acknowledgement: Vec<u8>, room: usize) -> Result<Vec<u8>, Refusal> {
    if acknowledgement.len() > room || acknowledgement.len() > LONGEST_MESSAGE {
        return refuse(10, 0);
    }
    Ok(acknowledgement)
}

/// MSH with its CR. "It uses the sender's delimiters." "Fields 3, 4, 5, 6 are the sender's 5, 6, 3,
/// 4 as raw bytes (absent gives empty); 7 the caller's time; 8 empty"; then 9; "10 the caller's ID,
/// escaped; 11 copied raw; 12 `2.4`".
fn header_back(header: &[u8], time: &[u8], id: &[u8]) -> Result<Vec<u8>, Refusal> {
    let fields = [
        &header[..=SUBCOMPONENT_SEPARATOR],
        field(header, 5)?,
        field(header, 6)?,
        field(header, 3)?,
        field(header, 4)?,
        time,
        b"",
        &type_back(header)?,
        &text::escaped(id, delimiters(header)),
        field(header, 11)?,
        b"2.4",
    ];
    Ok([&fields.join(&header[FIELD_SEPARATOR]), &[CR][..]].concat())
}

/// MSH-9: "`ACK`, and a component separator and raw component 2 of the sender's MSH-9, repetition
/// 1, after it where that is present".
fn type_back(header: &[u8]) -> Result<Vec<u8>, Refusal> {
    let event = find(header, 9, 1, 2)?;
    if event.state != State::Present {
        return Ok(b"ACK".to_vec());
    }
    Ok([b"ACK", &header[event.part]].join(&header[COMPONENT_SEPARATOR]))
}

/// MSA with its CR: "code, and the sender's MSH-10 raw".
fn answer_back(header: &[u8], code: &[u8]) -> Result<Vec<u8>, Refusal> {
    let fields = [b"MSA", code, field(header, 10)?];
    Ok([&fields.join(&header[FIELD_SEPARATOR]), &[CR][..]].concat())
}

/// The bytes of a whole field of the sender's header, none where it is absent.
fn field(header: &[u8], number: u64) -> Result<&[u8], Refusal> {
    let element = find(header, number, 0, 0)?;
    Ok(&header[element.part])
}

fn find(header: &[u8], field: u64, repetition: u64, component: u64) -> Result<Element, Refusal> {
    let address = Address { segment: 0, field, repetition, component, subcomponent: 0 };
    element::find(header, &address)
}

/// "The five delimiters travel together."
fn delimiters(header: &[u8]) -> Delimiters {
    std::array::from_fn(|number| header[FIELD_SEPARATOR + number])
}
