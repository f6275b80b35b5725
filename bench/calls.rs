//! How each entry point is called, of the library and of the baseline, and whether both answer alike.

use crate::jobs::{Entry, Job, ACKNOWLEDGE_REFUSED, DELIMITERS, LAST_NAME, LONGEST, ROOM};
use crate::library::{self, Answer, Element, Fed, FrameState, Lookup, Number, Structure, Time};
use crate::library::{Verdict, Writer};
use baseline::Address;
use std::hint::black_box;

// The baseline behind names of its own, so that a counter finds it and no call is taken out.

#[no_mangle]
#[inline(never)]
fn baseline_read(message: &[u8]) -> baseline::Answer {
    baseline::read(message)
}

#[no_mangle]
#[inline(never)]
fn baseline_find(message: &[u8], address: Address) -> baseline::Element {
    baseline::find(message, address)
}

#[no_mangle]
#[inline(never)]
fn baseline_nm(message: &[u8], address: Address) -> baseline::Value<baseline::Number> {
    baseline::nm(message, address)
}

#[no_mangle]
#[inline(never)]
fn baseline_si(message: &[u8], address: Address) -> baseline::Value<baseline::Number> {
    baseline::si(message, address)
}

#[no_mangle]
#[inline(never)]
fn baseline_dt(message: &[u8], address: Address) -> baseline::Value<baseline::Time> {
    baseline::dt(message, address)
}

#[no_mangle]
#[inline(never)]
fn baseline_tm(message: &[u8], address: Address) -> baseline::Value<baseline::Time> {
    baseline::tm(message, address)
}

#[no_mangle]
#[inline(never)]
fn baseline_ts(message: &[u8], address: Address) -> baseline::Value<baseline::Time> {
    baseline::ts(message, address)
}

#[no_mangle]
#[inline(never)]
fn baseline_structure(message: &[u8]) -> baseline::Verdict {
    baseline::structure(message)
}

#[no_mangle]
#[inline(never)]
fn baseline_could_stand(message: &[u8], index: usize) -> u32 {
    baseline::could_stand(message, index)
}

#[no_mangle]
#[inline(never)]
fn baseline_verdict(message: &[u8]) -> baseline::Verdict {
    baseline::verdict(message)
}

#[no_mangle]
#[inline(never)]
fn baseline_acknowledge(
    message: &[u8],
    time: &[u8],
    id: &[u8],
    buffer: &mut [u8],
) -> baseline::Answer {
    baseline::acknowledge(message, time, id, buffer)
}

#[no_mangle]
#[inline(never)]
fn baseline_escape(delimiters: &[u8; 5], text: &[u8], buffer: &mut [u8]) -> baseline::Answer {
    baseline::escape(delimiters, text, buffer)
}

#[no_mangle]
#[inline(never)]
fn baseline_unescape(delimiters: &[u8; 5], text: &[u8], buffer: &mut [u8]) -> baseline::Answer {
    baseline::unescape(delimiters, text, buffer)
}

#[no_mangle]
#[inline(never)]
fn baseline_format(delimiters: &[u8; 5], text: &[u8], buffer: &mut [u8]) -> baseline::Answer {
    baseline::format(delimiters, text, buffer)
}

#[no_mangle]
#[inline(never)]
fn baseline_feed(state: baseline::FrameState, piece: &[u8], buffer: &mut [u8]) -> baseline::Fed {
    baseline::feed(state, piece, buffer)
}

const TIME: &[u8] = b"20240229093001+0000";
const ID: &[u8] = b"ACK0001";

/// What the last name is that could stand in the place of a report's last segment.
const DSC: u32 = 0x44_53_43;

#[derive(Clone, Copy, PartialEq)]
pub enum Side {
    Library,
    Baseline,
}

impl Entry {
    /// Whether the baseline has it too; what it does not have is measured alone.
    pub fn has_baseline(self) -> bool {
        self != Entry::Leaves
    }
}

/// An answer of either side, with all that it tells.
#[derive(PartialEq)]
pub enum Told {
    Answer(Answer),
    Verdict(Verdict),
    Structure(Structure),
    Name(u32),
    Fed(Fed),
    Element(Element),
    Number(Number),
    Time(Time),
}

impl Job {
    #[inline(always)]
    pub fn call(&self, side: Side, buffer: &mut [u8]) -> Told {
        match side {
            Side::Library => self.call_library(buffer),
            Side::Baseline => self.call_baseline(buffer),
        }
    }

    #[inline(always)]
    fn call_library(&self, buffer: &mut [u8]) -> Told {
        let bytes = black_box(&self.bytes[..]);
        let (at, length) = (bytes.as_ptr(), bytes.len());
        // Every pointer leads to as many bytes as its length says, and the buffer is our own.
        unsafe {
            match self.entry {
                Entry::Read => Told::Answer(library::turrethog_read(at, length)),
                Entry::Verdict => Told::Verdict(library::turrethog_verdict(at, length)),
                Entry::Structure => Told::Structure(library::turrethog_structure(at, length)),
                Entry::Leaves => {
                    let mut rows = self.rows.borrow_mut();
                    let (to, room) = (rows.as_mut_ptr(), rows.len());
                    Told::Answer(library::turrethog_leaves(at, length, to, room))
                }
                Entry::CouldStand => {
                    Told::Name(library::turrethog_could_stand(at, length, LAST_NAME))
                }
                Entry::Acknowledge => Told::Answer(library::turrethog_acknowledge(
                    at,
                    length,
                    TIME.as_ptr(),
                    TIME.len(),
                    ID.as_ptr(),
                    ID.len(),
                    buffer.as_mut_ptr(),
                    buffer.len(),
                )),
                Entry::Escape => Told::Answer(write(library::turrethog_escape, bytes, buffer)),
                Entry::Unescape => Told::Answer(write(library::turrethog_unescape, bytes, buffer)),
                Entry::Format => Told::Answer(write(library::turrethog_format, bytes, buffer)),
                Entry::Feed(most) => Told::Fed(serve(bytes, most, buffer, feed_library)),
                Entry::Find(at) => Told::Element(look_up(library::turrethog_find, bytes, at)),
                Entry::Nm(at) => Told::Number(look_up(library::turrethog_nm, bytes, at)),
                Entry::Si(at) => Told::Number(look_up(library::turrethog_si, bytes, at)),
                Entry::Dt(at) => Told::Time(look_up(library::turrethog_dt, bytes, at)),
                Entry::Tm(at) => Told::Time(look_up(library::turrethog_tm, bytes, at)),
                Entry::Ts(at) => Told::Time(look_up(library::turrethog_ts, bytes, at)),
            }
        }
    }

    #[inline(always)]
    fn call_baseline(&self, buffer: &mut [u8]) -> Told {
        let bytes = black_box(&self.bytes[..]);
        let told = |answer: baseline::Answer| {
            let baseline::Answer { number, place, length } = answer;
            Told::Answer(Answer { number, place, length })
        };
        match self.entry {
            Entry::Read => told(baseline_read(bytes)),
            Entry::Verdict => {
                let baseline::Verdict { number, could_end, place, field, repetition, names } =
                    baseline_verdict(bytes);
                let names = names.iter().count();
                Told::Verdict(Verdict { number, could_end, place, field, repetition, names })
            }
            Entry::Structure => {
                let baseline::Verdict { number, could_end, place, names, .. } =
                    baseline_structure(bytes);
                let names = names.iter().count();
                Told::Structure(Structure { number, could_end, place, names })
            }
            Entry::Leaves => unreachable!("the baseline lists no leaves"),
            Entry::CouldStand => Told::Name(baseline_could_stand(bytes, LAST_NAME)),
            Entry::Acknowledge => told(baseline_acknowledge(bytes, TIME, ID, buffer)),
            Entry::Escape => told(baseline_escape(&DELIMITERS, bytes, buffer)),
            Entry::Unescape => told(baseline_unescape(&DELIMITERS, bytes, buffer)),
            Entry::Format => told(baseline_format(&DELIMITERS, bytes, buffer)),
            Entry::Feed(most) => Told::Fed(serve(bytes, most, buffer, feed_baseline)),
            Entry::Find(address) => {
                let found = baseline_find(bytes, address);
                let baseline::Element { number, place, start, end, .. } = found;
                let state = state_of(found.state);
                Told::Element(Element { number, state, place, start, end })
            }
            Entry::Nm(address) => Told::Number(number_of(baseline_nm(bytes, address))),
            Entry::Si(address) => Told::Number(number_of(baseline_si(bytes, address))),
            Entry::Dt(address) => Told::Time(time_of(baseline_dt(bytes, address))),
            Entry::Tm(address) => Told::Time(time_of(baseline_tm(bytes, address))),
            Entry::Ts(address) => Told::Time(time_of(baseline_ts(bytes, address))),
        }
    }

    /// Both sides answer alike, to the last byte that they write, and as it is meant.
    pub fn is_answered(&self) -> bool {
        if let Entry::Feed(most) = self.entry {
            return agree_on_line(&self.bytes, most);
        }
        let (mut ours, mut theirs) = (vec![0xA5; ROOM], vec![0xA5; ROOM]);
        let told = self.call(Side::Library, &mut ours);
        if !self.is_meant(&told, &ours) {
            return false;
        }
        !self.entry.has_baseline()
            || (told == self.call(Side::Baseline, &mut theirs) && ours == theirs)
    }

    fn is_meant(&self, told: &Told, buffer: &[u8]) -> bool {
        let (number, state) = match told {
            Told::Answer(answer) => (answer.number, library::PRESENT),
            Told::Verdict(verdict) => (verdict.number, library::PRESENT),
            Told::Structure(structure) => (structure.number, library::PRESENT),
            Told::Fed(fed) => (fed.number, library::PRESENT),
            Told::Element(element) => (element.number, element.state),
            Told::Number(number) => (number.number, number.state),
            Told::Time(time) => (time.number, time.state),
            Told::Name(name) => return *name == DSC,
        };
        let has_error = match told {
            Told::Answer(answer) if self.title == ACKNOWLEDGE_REFUSED => {
                buffer[..answer.length].ends_with(&error_at_last_result(&self.bytes))
            }
            _ => true,
        };
        number == self.number() && state == library::PRESENT && has_error
    }
}

// The baseline's values as the library gives them.

fn state_of(state: Option<baseline::State>) -> u32 {
    match state {
        None => library::ABSENT,
        Some(baseline::State::Empty) => library::EMPTY,
        Some(baseline::State::Null) => library::NULL,
        Some(baseline::State::Present) => library::PRESENT,
    }
}

fn number_of(found: baseline::Value<baseline::Number>) -> Number {
    let baseline::Value { number, place, state, said } = found;
    let baseline::Number { value, decimals } = said;
    Number { number, state: state_of(state), place, value, decimals }
}

fn time_of(found: baseline::Value<baseline::Time>) -> Time {
    let baseline::Value { number, place, state, said } = found;
    let baseline::Time { date, clock, digits, offset, sign } = said;
    let part = |part| match part {
        baseline::NOT_SENT => library::NOT_SENT,
        _ => u64::from(part),
    };
    let ([hour, minute, second, fraction], [hours, minutes]) = (clock.map(part), offset.map(part));
    let sign = match sign {
        b'+' => library::PLUS,
        b'-' => library::MINUS,
        _ => library::NO_OFFSET,
    };
    let clock = [hour, minute, second, fraction, u64::from(digits)];
    let (date, offset) = (date.map(part), [sign, hours, minutes]);
    Time { number, state: state_of(state), place, date, clock, offset }
}

/// The ERR of a report whose last result has a time that is none, with the CR before it.
fn error_at_last_result(report: &[u8]) -> Vec<u8> {
    let lines = report.split(|&byte| byte == b'\r');
    let results = lines.filter(|line| line.starts_with(b"OBX|")).count();
    format!("\rERR|OBX^{results}^14^102\r").into_bytes()
}

/// Each call of a line is answered alike and leaves the same buffer, and at the end there is a frame,
/// which is the message.
fn agree_on_line(line: &[u8], most: usize) -> bool {
    let (mut ours, mut theirs) = (vec![0xA5; LONGEST], vec![0xA5; LONGEST]);
    let mut fed = Fed::default();
    for piece in line.chunks(most) {
        let mut rest = piece;
        while !rest.is_empty() {
            let told = feed_baseline(fed.state, rest, &mut theirs);
            fed = feed_library(fed.state, rest, &mut ours);
            if fed != told || ours != theirs || fed.used == 0 {
                return false;
            }
            rest = &rest[fed.used..];
        }
    }
    let message = &line[1..line.len() - 2];
    fed.length == message.len() && ours.starts_with(message)
}

#[inline(always)]
fn look_up<Found>(lookup: Lookup<Found>, message: &[u8], address: Address) -> Found {
    let Address { segment, field, repetition, component, subcomponent } = address;
    let (at, length) = (message.as_ptr(), message.len());
    // The pointer leads to as many bytes as the length says.
    unsafe { lookup(at, length, segment, field, repetition, component, subcomponent) }
}

#[inline(always)]
fn write(writer: Writer, text: &[u8], buffer: &mut [u8]) -> Answer {
    let [field, component, repetition, escape, subcomponent] = DELIMITERS;
    let (at, length) = (text.as_ptr(), text.len());
    let (to, room) = (buffer.as_mut_ptr(), buffer.len());
    // Both pointers lead to as many bytes as their lengths say.
    unsafe { writer(field, component, repetition, escape, subcomponent, at, length, to, room) }
}

/// Hands a line over in pieces, as one who serves it does, and gives what came back last.
#[inline(always)]
fn serve(
    line: &[u8],
    most: usize,
    buffer: &mut [u8],
    feed: impl Fn(FrameState, &[u8], &mut [u8]) -> Fed,
) -> Fed {
    let mut fed = Fed::default();
    for piece in line.chunks(most) {
        let mut rest = piece;
        while !rest.is_empty() {
            fed = feed(fed.state, rest, &mut buffer[..LONGEST]);
            // A call that uses nothing would go on for ever.
            if fed.used == 0 {
                return fed;
            }
            rest = &rest[fed.used..];
        }
    }
    fed
}

#[inline(always)]
fn feed_library(state: FrameState, piece: &[u8], buffer: &mut [u8]) -> Fed {
    let (at, length) = (piece.as_ptr(), piece.len());
    // Both pointers lead to as many bytes as their lengths say.
    unsafe { library::turrethog_feed(state, at, length, buffer.as_mut_ptr(), buffer.len()) }
}

#[inline(always)]
fn feed_baseline(state: FrameState, piece: &[u8], buffer: &mut [u8]) -> Fed {
    let FrameState { mode, held, count } = state;
    let fed = baseline_feed(baseline::FrameState { mode, held, count }, piece, buffer);
    let baseline::Fed { number, stop, used, length, state } = fed;
    let baseline::FrameState { mode, held, count } = state;
    Fed { number, stop: stop as u32, used, length, state: FrameState { mode, held, count } }
}
