//! Where an element of a message stands, in which state, and what it says: a reading fault, then 19,
//! then 32 or 37. The message is read first; then what stands before the element is passed over, and
//! of all the ends only its own is sought.

use crate::bytes::{find_far, first_block_with, state_of, Delimiters, State, CR};
use crate::reading::delimiters_of;
use crate::values::{self, Number, Time};
use crate::{read, Answer, Refusal};

/// Segments count from 0, fields from 1, and so do repetitions, components and subcomponents, of
/// which 0 is the whole.
#[derive(Clone, Copy, PartialEq)]
pub struct Address {
    pub segment: usize,
    pub field: usize,
    pub repetition: usize,
    pub component: usize,
    pub subcomponent: usize,
}

/// An element: its state, none where it is absent, and the bytes of the message that it is.
#[derive(Clone, Copy, Default)]
pub struct Element {
    pub number: u32,
    pub place: usize,
    pub state: Option<State>,
    pub start: usize,
    pub end: usize,
}

impl From<Refusal> for Element {
    fn from(refusal: Refusal) -> Element {
        Element { number: refusal.number, place: refusal.place, ..Element::default() }
    }
}

/// What an element says: where it is not present, or is refused, 0 or no part of a time.
#[derive(Clone, Copy, Default)]
pub struct Value<Said> {
    pub number: u32,
    pub place: usize,
    pub state: Option<State>,
    pub said: Said,
}

/// A reading fault, or 19 for a bad address or no such segment.
#[inline]
pub fn find(message: &[u8], address: Address) -> Element {
    match look_up(message, address) {
        Ok(element) => element,
        Err(refusal) => refusal.into(),
    }
}

/// The element as a number (NM): also 32, and 37 for over 18 digits.
#[inline]
pub fn nm(message: &[u8], address: Address) -> Value<Number> {
    value_of(message, address, values::nm)
}

/// As a sequence number (SI): also 32.
#[inline]
pub fn si(message: &[u8], address: Address) -> Value<Number> {
    value_of(message, address, values::si)
}

/// As a date (DT): also 32.
#[inline]
pub fn dt(message: &[u8], address: Address) -> Value<Time> {
    value_of(message, address, values::dt)
}

/// As a time of day (TM): also 32.
#[inline]
pub fn tm(message: &[u8], address: Address) -> Value<Time> {
    value_of(message, address, values::tm)
}

/// As a time stamp (TS): also 32.
#[inline]
pub fn ts(message: &[u8], address: Address) -> Value<Time> {
    value_of(message, address, values::ts)
}

#[inline(always)]
fn value_of<Said: Default>(
    message: &[u8],
    address: Address,
    read_value: impl Fn(&[u8]) -> Result<Said, u32>,
) -> Value<Said> {
    let (number, place, state, said) = match look_up(message, address) {
        Err(Refusal { number, place }) => (number, place, None, Said::default()),
        Ok(Element { state: Some(State::Present), start, end, .. }) => {
            let (number, said) = match read_value(&message[start..end]) {
                Ok(said) => (0, said),
                Err(number) => (number, Said::default()),
            };
            (number, 0, Some(State::Present), said)
        }
        Ok(Element { state, .. }) => (0, 0, state, Said::default()),
    };
    Value { number, place, state, said }
}

#[inline(always)]
fn look_up(message: &[u8], address: Address) -> Result<Element, Refusal> {
    let Answer { number, place, .. } = read(message);
    if number != 0 {
        return Err(Refusal { number, place });
    }
    let Some(segment) = start_of(message, address.segment).filter(|_| is_sound(address)) else {
        return Err(Refusal { number: 19, place: 0 });
    };
    let delimiters = delimiters_of(message);
    let part = if address.segment == 0 && address.field <= 2 {
        header_part(address)
    } else {
        part_of(&message[segment..], address, &delimiters)
            .map(|(start, length)| (segment + start, segment + start + length))
    };
    let Some((start, end)) = part else {
        return Ok(Element::default());
    };
    let state = Some(state_of(&message[start..end], &delimiters));
    Ok(Element { state, start, end, ..Element::default() })
}

/// Where a segment begins.
#[inline(always)]
fn start_of(message: &[u8], segment: usize) -> Option<usize> {
    let mut start = 0;
    for _ in 0..segment {
        start += find_far::<32>(&message[start..], CR)? + 1;
    }
    // Behind the last CR there is none.
    (start < message.len()).then_some(start)
}

/// Behind a 0 only 0 may stand, and no field is 0.
fn is_sound(address: Address) -> bool {
    let Address { field, repetition, component, subcomponent, .. } = address;
    let behind_repetition = repetition != 0 || component == 0;
    let behind_component = component != 0 || subcomponent == 0;
    field != 0 && behind_repetition && behind_component
}

/// MSH-1 is the separator and MSH-2 the four bytes behind it. Neither is split.
fn header_part(address: Address) -> Option<(usize, usize)> {
    let whole = address.repetition <= 1 && address.component <= 1 && address.subcomponent <= 1;
    whole.then_some(if address.field == 1 { (3, 4) } else { (4, 8) })
}

/// Where the part begins in its segment, which stands in front of the bytes, and the part's length.
/// Each level is passed over up to the part, and a level ends at the separators above it, so that
/// no end is sought but that of the part itself.
#[inline(always)]
fn part_of(bytes: &[u8], address: Address, delimiters: &Delimiters) -> Option<(usize, usize)> {
    let Address { repetition, component, subcomponent, .. } = address;
    let &[field_mark, component_mark, repetition_mark, _, subcomponent_mark] = delimiters;
    let ends_field = |byte| byte == CR || byte == field_mark;
    let ends_repetition = |byte| ends_field(byte) || byte == repetition_mark;
    let ends_component = |byte| ends_repetition(byte) || byte == component_mark;
    let ends_subcomponent = |byte| ends_component(byte) || byte == subcomponent_mark;
    let found = |rest: &[u8], end: Option<usize>| Some((bytes.len() - rest.len(), end?));

    // The separator behind MSH is MSH-1 itself.
    let separators = address.field - usize::from(address.segment == 0);
    let rest = behind_fields(bytes, field_mark, separators)?;
    if repetition == 0 {
        return found(rest, first_block_with(rest, ends_field));
    }
    let rest = behind(rest, repetition_mark, repetition - 1, ends_field)?;
    if component == 0 {
        return found(rest, first_block_with(rest, ends_repetition));
    }
    let rest = behind(rest, component_mark, component - 1, ends_repetition)?;
    if subcomponent == 0 {
        return found(rest, first_block_with(rest, ends_component));
    }
    let rest = behind(rest, subcomponent_mark, subcomponent - 1, ends_component)?;
    found(rest, first_block_with(rest, ends_subcomponent))
}

/// What stands behind so many field separators of a segment. A block with fewer than are left, all
/// of it in the segment, is passed over at once.
#[inline(always)]
fn behind_fields(bytes: &[u8], separator: u8, mut count: usize) -> Option<&[u8]> {
    const BLOCK: usize = 32;
    let mut rest = bytes;
    while let Some((block, left)) = rest.split_first_chunk::<BLOCK>() {
        let here = block.iter().fold(0, |here, &byte| here + u8::from(byte == separator));
        let ends = block.iter().fold(false, |ends, &byte| ends | (byte == CR));
        if ends || usize::from(here) >= count {
            break;
        }
        count -= usize::from(here);
        rest = left;
    }
    behind(rest, separator, count, |byte| byte == CR)
}

/// What stands behind so many separators, where the level above has not ended before.
#[inline(always)]
fn behind(
    bytes: &[u8],
    separator: u8,
    mut count: usize,
    has_ended: impl Fn(u8) -> bool,
) -> Option<&[u8]> {
    let mut rest = bytes;
    while count > 0 {
        let (&byte, left) = rest.split_first()?;
        if has_ended(byte) {
            return None;
        }
        count -= usize::from(byte == separator);
        rest = left;
    }
    Some(rest)
}
