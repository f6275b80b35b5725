//! Elements: the parts of a message that can be asked for by an address, their four states, and
//! where they stand. "Lookup: a reading fault, 19, then 32 or 37", the last two by the rules of the
//! number or time that was asked for.

use crate::reading::{
    self, refuse, Refusal, COMPONENT_SEPARATOR, CR, FIELD_SEPARATOR, REPETITION_SEPARATOR,
    SUBCOMPONENT_SEPARATOR,
};
use std::ops::Range;

/// "An element is asked for by segment (from 0), field (from 1), repetition, component,
/// subcomponent (from 1; 0 means the whole, and after a 0 only 0 may stand)."
pub struct Address {
    pub segment: u64,
    pub field: u64,
    pub repetition: u64,
    pub component: u64,
    pub subcomponent: u64,
}

/// The bytes of the message from the first offset up to, not including, the second.
pub type Part = Range<usize>;

/// "Four states."
#[derive(Clone, Copy, PartialEq)]
pub enum State {
    Absent,
    Empty,
    Null,
    Present,
}

/// "The answer to a question shows the part of the message where it stands."
pub struct Element {
    pub state: State,
    pub part: Part,
}

/// The element at an address. One that is absent stands nowhere, at 0 to 0 (ruling 10).
pub fn find(message: &[u8], address: &Address) -> Result<Element, Refusal> {
    reading::read(message)?;
    check_address(address)?;
    let Some(segment) = part_from_zero(segments(message), address.segment) else {
        return refuse(19, 0);
    };
    Ok(match part_at(message, segment, address) {
        Some(part) => Element { state: state_of(message, &part), part },
        None => Element { state: State::Absent, part: 0..0 },
    })
}

/// "Asked for its number (NM, SI) or time (DT, TM, TS), an element not present gives its state
/// alone."
pub fn find_value<Value>(
    message: &[u8],
    address: &Address,
    read_value: fn(&[u8]) -> Result<Value, Refusal>,
) -> Result<(State, Option<Value>), Refusal> {
    let element = find(message, address)?;
    if element.state != State::Present {
        return Ok((element.state, None));
    }
    let value = read_value(&message[element.part])?;
    Ok((State::Present, Some(value)))
}

/// 19: "bad address", judged by its numbers alone (ruling 6). Field 0 is bad, and among repetition,
/// component and subcomponent "after a 0 only 0 may stand".
fn check_address(address: &Address) -> Result<(), Refusal> {
    let behind_zero_repetition = address.component != 0 || address.subcomponent != 0;
    let behind_zero_component = address.subcomponent != 0;
    if address.field == 0
        || address.repetition == 0 && behind_zero_repetition
        || address.component == 0 && behind_zero_component
    {
        return refuse(19, 0);
    }
    Ok(())
}

/// The part of a segment that the address asks for, where there is one.
fn part_at(message: &[u8], segment: Part, address: &Address) -> Option<Part> {
    let is_header = address.segment == 0;
    let field = part_from_one(fields(message, segment, is_header), address.field)?;
    if is_header && address.field <= 2 {
        return unsplit(field, address);
    }
    let mut part = field;
    for (number, separator) in [
        (address.repetition, REPETITION_SEPARATOR),
        (address.component, COMPONENT_SEPARATOR),
        (address.subcomponent, SUBCOMPONENT_SEPARATOR),
    ] {
        // "0 means the whole", and behind a 0 there are only 0.
        if number != 0 {
            part = part_from_one(split(message, part, message[separator]), number)?;
        }
    }
    Some(part)
}

/// The segments of a message that was read, each without the CR that ends it.
pub fn segments(message: &[u8]) -> Vec<Part> {
    split(message, 0..message.len() - 1, CR)
}

/// The fields behind a segment's name. "Field 1 of MSH is the separator byte, field 2 the four
/// encoding bytes": so only field 1 is another than behind other names.
pub fn fields(message: &[u8], segment: Part, is_header: bool) -> Vec<Part> {
    let mut parts = split(message, segment, message[FIELD_SEPARATOR]);
    let name = parts.remove(0);
    if is_header {
        parts.insert(0, name.end..name.end + 1);
    }
    parts
}

/// MSH-1 and MSH-2: "neither split further (repetition, component and subcomponent 0 or 1 give the
/// whole, more is absent)".
fn unsplit(field: Part, address: &Address) -> Option<Part> {
    let whole = address.repetition <= 1 && address.component <= 1 && address.subcomponent <= 1;
    whole.then_some(field)
}

/// "Each level splits the part above it at its own separator; an empty part splits into one empty
/// part."
pub fn split(message: &[u8], part: Part, separator: u8) -> Vec<Part> {
    let mut start = part.start;
    let mut parts = Vec::new();
    for piece in message[part].split(|&byte| byte == separator) {
        let end = start + piece.len();
        parts.push(start..end);
        start = end + 1;
    }
    parts
}

/// The part of this number, counted from 0. A huge number has none, and never wraps (ruling 7).
fn part_from_zero(parts: Vec<Part>, number: u64) -> Option<Part> {
    let number = usize::try_from(number).ok()?;
    parts.get(number).cloned()
}

/// The part of this number, counted from 1.
fn part_from_one(parts: Vec<Part>, number: u64) -> Option<Part> {
    part_from_zero(parts, number.checked_sub(1)?)
}

/// "Empty, no bytes or only component, subcomponent or repetition separators; null, exactly `""`;
/// present, anything else."
pub fn state_of(message: &[u8], part: &Part) -> State {
    let separators = [
        message[COMPONENT_SEPARATOR],
        message[SUBCOMPONENT_SEPARATOR],
        message[REPETITION_SEPARATOR],
    ];
    let bytes = &message[part.clone()];
    if bytes.iter().all(|byte| separators.contains(byte)) {
        State::Empty
    } else if bytes == b"\"\"" {
        State::Null
    } else {
        State::Present
    }
}
