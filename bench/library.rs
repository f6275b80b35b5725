//! The library as include/turrethog.h has it.

#[repr(C)]
#[derive(Clone, Copy, PartialEq)]
pub struct Answer {
    pub number: u32,
    pub place: usize,
    pub length: usize,
}

#[repr(C)]
#[derive(Clone, Copy, PartialEq)]
pub struct Verdict {
    pub number: u32,
    pub could_end: bool,
    pub place: usize,
    pub field: usize,
    pub repetition: usize,
    pub names: usize,
}

#[repr(C)]
#[derive(Clone, Copy, PartialEq)]
pub struct Structure {
    pub number: u32,
    pub could_end: bool,
    pub place: usize,
    pub names: usize,
}

#[repr(C)]
#[derive(Clone, Copy, Default, PartialEq)]
pub struct FrameState {
    pub mode: u64,
    pub held: usize,
    pub count: u64,
}

#[repr(C)]
#[derive(Clone, Copy, Default, PartialEq)]
pub struct Fed {
    pub number: u32,
    pub stop: u32,
    pub used: usize,
    pub length: usize,
    pub state: FrameState,
}

#[repr(C)]
#[derive(Clone, Copy, PartialEq)]
pub struct Element {
    pub number: u32,
    pub state: u32,
    pub place: usize,
    pub start: usize,
    pub end: usize,
}

#[repr(C)]
#[derive(Clone, Copy, PartialEq)]
pub struct Number {
    pub number: u32,
    pub state: u32,
    pub place: usize,
    pub value: i64,
    pub decimals: usize,
}

#[repr(C)]
#[derive(Clone, Copy, PartialEq)]
pub struct Time {
    pub number: u32,
    pub state: u32,
    pub place: usize,
    /// Year, month and day.
    pub date: [u64; 3],
    /// Hour, minute, second, fraction and its digits.
    pub clock: [u64; 5],
    /// Sign, hours and minutes.
    pub offset: [u64; 3],
}

/// The states of an element.
pub const ABSENT: u32 = 0;
pub const EMPTY: u32 = 1;
pub const NULL: u32 = 2;
pub const PRESENT: u32 = 3;

/// A part of a time that was not sent.
pub const NOT_SENT: u64 = u64::MAX;

/// The signs of an offset.
pub const NO_OFFSET: u64 = 0;
pub const PLUS: u64 = 1;
pub const MINUS: u64 = 2;

/// Looks an element up by the message and its length, and by segment, field, repetition, component and
/// subcomponent.
pub type Lookup<Found> =
    unsafe extern "C" fn(*const u8, usize, usize, usize, usize, usize, usize) -> Found;

/// Writes to a buffer by the five delimiters, the text and its length, the buffer and its room.
pub type Writer =
    unsafe extern "C" fn(u8, u8, u8, u8, u8, *const u8, usize, *mut u8, usize) -> Answer;

unsafe extern "C" {
    pub fn turrethog_feed(
        state: FrameState,
        piece: *const u8,
        length: usize,
        buffer: *mut u8,
        room: usize,
    ) -> Fed;
    pub fn turrethog_read(message: *const u8, length: usize) -> Answer;
    pub fn turrethog_leaves(
        message: *const u8,
        length: usize,
        buffer: *mut u64,
        room: usize,
    ) -> Answer;
    pub fn turrethog_find(
        message: *const u8,
        length: usize,
        segment: usize,
        field: usize,
        repetition: usize,
        component: usize,
        subcomponent: usize,
    ) -> Element;
    pub fn turrethog_nm(
        message: *const u8,
        length: usize,
        segment: usize,
        field: usize,
        repetition: usize,
        component: usize,
        subcomponent: usize,
    ) -> Number;
    pub fn turrethog_si(
        message: *const u8,
        length: usize,
        segment: usize,
        field: usize,
        repetition: usize,
        component: usize,
        subcomponent: usize,
    ) -> Number;
    pub fn turrethog_dt(
        message: *const u8,
        length: usize,
        segment: usize,
        field: usize,
        repetition: usize,
        component: usize,
        subcomponent: usize,
    ) -> Time;
    pub fn turrethog_tm(
        message: *const u8,
        length: usize,
        segment: usize,
        field: usize,
        repetition: usize,
        component: usize,
        subcomponent: usize,
    ) -> Time;
    pub fn turrethog_ts(
        message: *const u8,
        length: usize,
        segment: usize,
        field: usize,
        repetition: usize,
        component: usize,
        subcomponent: usize,
    ) -> Time;
    pub fn turrethog_structure(message: *const u8, length: usize) -> Structure;
    pub fn turrethog_verdict(message: *const u8, length: usize) -> Verdict;
    pub fn turrethog_could_stand(message: *const u8, length: usize, index: usize) -> u32;
    pub fn turrethog_acknowledge(
        message: *const u8,
        length: usize,
        time: *const u8,
        time_length: usize,
        id: *const u8,
        id_length: usize,
        buffer: *mut u8,
        room: usize,
    ) -> Answer;
    pub fn turrethog_escape(
        field: u8,
        component: u8,
        repetition: u8,
        escape: u8,
        subcomponent: u8,
        text: *const u8,
        length: usize,
        buffer: *mut u8,
        room: usize,
    ) -> Answer;
    pub fn turrethog_unescape(
        field: u8,
        component: u8,
        repetition: u8,
        escape: u8,
        subcomponent: u8,
        text: *const u8,
        length: usize,
        buffer: *mut u8,
        room: usize,
    ) -> Answer;
    pub fn turrethog_format(
        field: u8,
        component: u8,
        repetition: u8,
        escape: u8,
        subcomponent: u8,
        text: *const u8,
        length: usize,
        buffer: *mut u8,
        room: usize,
    ) -> Answer;
}
