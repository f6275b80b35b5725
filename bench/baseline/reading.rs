//! Is this a message at all? Numbers 1 to 8, in their order.

use crate::bytes::{find_far, first_not_allowed, wrong_delimiter, Delimiters, CR};
use crate::Refusal;

pub const LONGEST_MESSAGE: usize = 1_048_576;
pub const MOST_SEGMENTS: usize = 4_096;

/// Of a control ID, the message's or the caller's own.
pub const LONGEST_ID: usize = 199;

/// Most messages have no more segments.
const FEW: usize = 256;

/// Where the CR of each segment stands. Room for the most that there may be would have to be cleared
/// for every message, which is dear beside a small one. So the ends of a few are kept in an array,
/// and only where there are more is memory taken, for all of them.
pub struct Ends {
    few: [u32; FEW],
    many: Vec<u32>,
}

impl Ends {
    #[inline(always)]
    pub fn new() -> Ends {
        Ends { few: [0; FEW], many: Vec::new() }
    }

    /// Notes the end of a segment, behind those of all before it.
    #[inline(always)]
    fn note(&mut self, number: usize, end: usize) {
        // A place in a message fits 32 bits.
        let end = end as u32;
        match self.few.get_mut(number) {
            Some(place) => *place = end,
            None => self.note_far(end),
        }
    }

    /// Apart and cold, so that a small message does not pay for it.
    #[cold]
    fn note_far(&mut self, end: u32) {
        if self.many.is_empty() {
            self.many.reserve_exact(MOST_SEGMENTS);
            self.many.extend_from_slice(&self.few);
        }
        self.many.push(end);
    }

    /// The first so many of those that were noted.
    #[inline(always)]
    pub fn first(&self, count: usize) -> &[u32] {
        match self.few.get(..count) {
            Some(few) => few,
            None => &self.many[..count],
        }
    }
}

/// A message that was read, and where the CR of each of its segments stands.
#[derive(Clone, Copy)]
pub struct Segments<'a> {
    pub message: &'a [u8],
    pub ends: &'a [u32],
}

impl<'a> Segments<'a> {
    pub fn delimiters(self) -> Delimiters {
        delimiters_of(self.message)
    }

    /// The segments in turn, each without its CR.
    pub fn iter(self) -> impl Iterator<Item = &'a [u8]> {
        let mut start = 0;
        self.ends.iter().map(move |&end| {
            let segment = &self.message[start..end as usize];
            start = end as usize + 1;
            segment
        })
    }
}

/// The three bytes of a segment's name as one number, the first highest.
pub const fn name(letters: &[u8]) -> u32 {
    u32::from_be_bytes([0, letters[0], letters[1], letters[2]])
}

/// Bytes 3 to 7 of a message with a header.
pub fn delimiters_of(message: &[u8]) -> Delimiters {
    [message[3], message[4], message[5], message[6], message[7]]
}

/// All checks, and where the segments end, so that the judges behind the reader look for no CR.
#[inline(always)]
pub fn check_noting<'a>(message: &'a [u8], ends: &'a mut Ends) -> Result<Segments<'a>, Refusal> {
    let mut count = 0;
    check(message, |number, end| {
        ends.note(number, end);
        count = number + 1;
    })?;
    Ok(Segments { message, ends: ends.first(count) })
}

/// All checks. `ended` is told each segment that stands, by its number, and the place of its CR.
#[inline(always)]
pub fn check(message: &[u8], ended: impl FnMut(usize, usize)) -> Result<(), Refusal> {
    check_opening(message)?;
    let last = message.len() - 1;
    if message[last] != CR {
        return Err(Refusal { number: 5, place: last });
    }
    check_segments(message, ended)
}

/// Numbers 1 to 4: what an acknowledgement asks of a header alone.
#[inline(always)]
pub fn check_opening(message: &[u8]) -> Result<(), Refusal> {
    if message.is_empty() || message.len() > LONGEST_MESSAGE {
        return Err(Refusal { number: 1, place: 0 });
    }
    let &[b'M', b'S', b'H', separator, .., _] = message else {
        return Err(Refusal { number: 2, place: 0 });
    };
    if message.len() < 9 || (message[8] != separator && message[8] != CR) {
        return Err(Refusal { number: 2, place: 0 });
    }
    if let Some(place) = wrong_delimiter(&delimiters_of(message)) {
        return Err(Refusal { number: 3, place: 3 + place });
    }
    match first_not_allowed(message) {
        Some(place) => Err(Refusal { number: 4, place }),
        None => Ok(()),
    }
}

#[inline(always)]
fn check_segments(message: &[u8], mut ended: impl FnMut(usize, usize)) -> Result<(), Refusal> {
    let separator = message[3];
    let mut number = 0;
    let mut start = 0;
    while let Some(length) = find_far::<32>(&message[start..], CR) {
        let refuse = |number| Err(Refusal { number, place: start });
        if number == MOST_SEGMENTS {
            return refuse(8);
        }
        // The CR is kept, so that a name is four bytes whatever ends it.
        let &[first, second, third, behind, ..] = &message[start..=start + length] else {
            return refuse(6);
        };
        let well_named = first.is_ascii_uppercase()
            && may_follow(second)
            && may_follow(third)
            && (behind == separator || behind == CR);
        if !well_named {
            return refuse(6);
        }
        if number > 0 && name(&[first, second, third]) == name(b"MSH") {
            return refuse(7);
        }
        ended(number, start + length);
        number += 1;
        start += length + 1;
    }
    Ok(())
}

fn may_follow(byte: u8) -> bool {
    byte.is_ascii_uppercase() || byte.is_ascii_digit()
}
