//! What is measured: each entry point on some bytes, for the library and for the baseline. How it is
//! called stands in calls.rs.

use crate::reports;
use baseline::Address;
use std::cell::RefCell;

pub const DELIMITERS: [u8; 5] = *br"|^~\&";

/// A message has at most so many bytes, and a frame as much room.
pub const LONGEST: usize = 1_048_576;

/// Every result fits: a text that is escaped has at most five bytes for each.
pub const ROOM: usize = 5 * LONGEST;

/// What a packet of Ethernet carries of a line.
const PACKET: usize = 1_460;

/// In one piece: with what stands about it, no frame is longer.
const WHOLE: usize = LONGEST + 3;

/// The names that could stand in the place of a report's last segment are PID, ORC, OBR, OBX, NTE, CTI
/// and DSC: the last is the dearest to be told.
pub const LAST_NAME: usize = 6;

/// The kinds of messages and texts: reports of 1 KiB, 5 KiB, 32 KiB and 1 MiB, the last of as many
/// segments as there may be, and one of 1 MiB that has a document in one field.
pub const SMALL: &str = "small";
pub const USUAL: &str = "usual";
pub const LARGE: &str = "large";
pub const LARGEST: &str = "largest";
pub const DOCUMENT: &str = "document";

/// Three admissions that are alike up to PV1-2, and how many bytes stand behind it in the second, in
/// several segments, and in the third, in PV1 alone.
pub const BRIEF: &str = "brief-admission";
pub const FULL: &str = "full-admission";
pub const LONG: &str = "long-visit";
pub const BEHIND: usize = 10_000;

/// The titles of what is refused.
const BYTE_REFUSED: &str = "read, a byte refused";
const NAME_REFUSED: &str = "read, a name refused";
const STRUCTURE_REFUSED: &str = "structure, refused";
const SEGMENT_REFUSED: &str = "verdict, a segment refused";
const FIELD_REFUSED: &str = "verdict, a field refused";
pub const ACKNOWLEDGE_REFUSED: &str = "acknowledge, refused";
const FORMAT_REFUSED: &str = "format, refused";

#[derive(Clone, Copy, PartialEq)]
pub enum Entry {
    Read,
    Verdict,
    Structure,
    /// Every leaf, in a row of numbers.
    Leaves,
    /// The last name that could stand where a segment is misplaced.
    CouldStand,
    Acknowledge,
    Escape,
    Unescape,
    Format,
    /// A line of one frame, handed over in pieces of so many bytes at most.
    Feed(usize),
    /// The element at this address, or what it says.
    Find(Address),
    Nm(Address),
    Si(Address),
    Dt(Address),
    Tm(Address),
    Ts(Address),
}

impl Entry {
    /// The name of the function, behind that of its side.
    pub fn name(self) -> &'static str {
        match self {
            Entry::Read => "read",
            Entry::Verdict => "verdict",
            Entry::Structure => "structure",
            Entry::Leaves => "leaves",
            Entry::CouldStand => "could_stand",
            Entry::Acknowledge => "acknowledge",
            Entry::Escape => "escape",
            Entry::Unescape => "unescape",
            Entry::Format => "format",
            Entry::Feed(_) => "feed",
            Entry::Find(_) => "find",
            Entry::Nm(_) => "nm",
            Entry::Si(_) => "si",
            Entry::Dt(_) => "dt",
            Entry::Tm(_) => "tm",
            Entry::Ts(_) => "ts",
        }
    }
}

/// An entry point on some bytes. Title and kind together are its name; those of a title are alike but
/// for their kind.
pub struct Job {
    pub title: &'static str,
    pub kind: &'static str,
    pub entry: Entry,
    pub bytes: Vec<u8>,
    /// Where leaves are listed: as many numbers as are always enough. Who makes no call has no use for it.
    #[allow(dead_code)]
    pub rows: RefCell<Vec<u64>>,
}

impl Job {
    /// Its name as one word.
    pub fn row(&self) -> String {
        row(self.title, self.kind)
    }

    /// The number that it is to be answered by. Data in Base64 are no value of any form, and one word
    /// that goes into no line. No element of a report is a time of day.
    pub fn number(&self) -> u32 {
        match (self.title, self.entry, self.kind) {
            (BYTE_REFUSED, ..) => 4,
            (NAME_REFUSED, ..) => 6,
            (STRUCTURE_REFUSED | SEGMENT_REFUSED, ..) => 21,
            (FIELD_REFUSED, ..) => 32,
            (FORMAT_REFUSED, ..) => 42,
            (_, Entry::Nm(_) | Entry::Si(_) | Entry::Dt(_) | Entry::Ts(_), DOCUMENT) => 32,
            (_, Entry::Tm(_), _) => 32,
            _ => 0,
        }
    }

    /// The bytes of the message, text or frame: what stands about a frame is none of it.
    pub fn length(&self) -> usize {
        match self.entry {
            Entry::Feed(_) => self.bytes.len() - 3,
            _ => self.bytes.len(),
        }
    }

    /// The bytes that what a call takes is told by: those of the result too where a text is formatted,
    /// since a short command may stand for many.
    pub fn measure(&self) -> usize {
        match self.entry {
            Entry::Format => {
                let mut buffer = vec![0; ROOM];
                self.length() + baseline::format(&DELIMITERS, &self.bytes, &mut buffer).length
            }
            _ => self.length(),
        }
    }
}

fn row(title: &str, kind: &str) -> String {
    format!("{title} {kind}").replace(", ", " ").replace(' ', "-")
}

/// All that is measured, in the order of the table.
pub fn all() -> Vec<Job> {
    measured(None)
}

/// One of them, by its name: to make them all takes longer than a call.
pub fn one(row: &str) -> Option<Job> {
    measured(Some(row)).pop()
}

fn measured(wanted: Option<&str>) -> Vec<Job> {
    let mut jobs = Jobs { wanted, list: Vec::new() };
    jobs.add_report(SMALL, 9, 1_024);
    jobs.add_report(USUAL, 40, 5_120);
    jobs.add_report(LARGE, 256, 32_768);
    jobs.add_report(LARGEST, 4_096, LONGEST);
    jobs.add_more_of_report(SMALL, 9, 1_024);
    jobs.add_more_of_report(LARGEST, 4_096, LONGEST);
    jobs.add_refused_text(SMALL, 1_024);
    jobs.add_document(DOCUMENT, LONGEST);
    jobs.add_lookups();
    in_order(jobs.list)
}

/// The titles, each once, in the order of the jobs.
pub fn titles(jobs: &[Job]) -> Vec<&'static str> {
    let mut titles = Vec::new();
    for job in jobs {
        if !titles.contains(&job.title) {
            titles.push(job.title);
        }
    }
    titles
}

/// The jobs of a title stand together.
fn in_order(mut jobs: Vec<Job>) -> Vec<Job> {
    let titles = titles(&jobs);
    jobs.sort_by_key(|job| titles.iter().position(|title| *title == job.title));
    jobs
}

/// Jobs that are put together: all, or only one.
struct Jobs<'a> {
    wanted: Option<&'a str>,
    list: Vec<Job>,
}

impl Jobs<'_> {
    fn add(
        &mut self,
        title: &'static str,
        kind: &'static str,
        entry: Entry,
        bytes: impl FnOnce() -> Vec<u8>,
    ) {
        if self.wanted.is_none_or(|wanted| wanted == row(title, kind)) {
            let bytes = bytes();
            let numbers = if entry == Entry::Leaves { 8 * bytes.len() } else { 0 };
            self.list.push(Job { title, kind, entry, bytes, rows: RefCell::new(vec![0; numbers]) });
        }
    }

    /// What is measured of a message of any kind. A fault stands as far behind as it can, so that what
    /// is refused is passed over to the end; and where an answer tells its place, segments are counted.
    fn add_message(&mut self, kind: &'static str, message: impl Fn() -> Vec<u8>) {
        let with_bad_byte = || reports::with_bad_byte(&message());
        let with_bad_name = || reports::with_bad_name(&message());
        let misplaced = || reports::misplaced(&message());
        let refused = || reports::refused(&message());
        self.add("read", kind, Entry::Read, &message);
        self.add(BYTE_REFUSED, kind, Entry::Read, with_bad_byte);
        self.add(NAME_REFUSED, kind, Entry::Read, with_bad_name);
        self.add("leaves", kind, Entry::Leaves, &message);
        self.add("structure", kind, Entry::Structure, &message);
        self.add(STRUCTURE_REFUSED, kind, Entry::Structure, misplaced);
        self.add("verdict", kind, Entry::Verdict, &message);
        self.add(SEGMENT_REFUSED, kind, Entry::Verdict, misplaced);
        self.add(FIELD_REFUSED, kind, Entry::Verdict, refused);
        self.add("acknowledge", kind, Entry::Acknowledge, &message);
        self.add(ACKNOWLEDGE_REFUSED, kind, Entry::Acknowledge, refused);
        self.add("feed", kind, Entry::Feed(WHOLE), || framed(&message()));
        self.add("feed, by 1,460", kind, Entry::Feed(PACKET), || framed(&message()));
    }

    /// The last result stands before the last segment, and is a number.
    fn add_report(&mut self, kind: &'static str, segments: usize, bytes: usize) {
        let report = || reports::report(segments, bytes);
        let (last_result, last) = (segments - 2, segments - 1);
        self.add_message(kind, report);
        self.add("find OBX-5", kind, Entry::Find(field(last_result, 5)), report);
        self.add("find NTE-3, far", kind, Entry::Find(field(last, 3)), report);
        self.add("nm", kind, Entry::Nm(field(last_result, 5)), report);
        self.add("ts", kind, Entry::Ts(field(last_result, 14)), report);
        self.add("format", kind, Entry::Format, || reports::formatted_text(bytes));
        self.add("escape", kind, Entry::Escape, || reports::text(bytes));
        self.add("unescape", kind, Entry::Unescape, || written_text(bytes));
    }

    /// The entry points and elements that are left, for what grows with the message.
    fn add_more_of_report(&mut self, kind: &'static str, segments: usize, bytes: usize) {
        let report = || reports::report(segments, bytes);
        let (patient, last_result) = (1, segments - 2);
        self.add_parts(kind, last_result, 1, report);
        self.add("si", kind, Entry::Si(field(last_result, 1)), report);
        self.add("dt", kind, Entry::Dt(field(patient, 7)), report);
        self.add("tm", kind, Entry::Tm(field(last_result, 14)), report);
        let misplaced = || reports::misplaced(&report());
        self.add("could_stand", kind, Entry::CouldStand, misplaced);
    }

    /// Every entry point, with the data where a text or a value is asked for.
    fn add_document(&mut self, kind: &'static str, bytes: usize) {
        let document = || reports::document(bytes);
        let data = || reports::base64(bytes).into_bytes();
        let (segment, component) = (reports::DOCUMENT_SEGMENT, reports::DOCUMENT_COMPONENT);
        let value = Address { repetition: 1, component, ..field(segment, 5) };
        self.add_message(kind, document);
        self.add("find OBX-5", kind, Entry::Find(field(segment, 5)), document);
        self.add("nm", kind, Entry::Nm(value), document);
        self.add("ts", kind, Entry::Ts(value), document);
        self.add("escape", kind, Entry::Escape, data);
        self.add("unescape", kind, Entry::Unescape, data);
        self.add_parts(kind, segment, component, document);
        self.add("si", kind, Entry::Si(value), document);
        self.add("dt", kind, Entry::Dt(value), document);
        self.add("tm", kind, Entry::Tm(value), document);
        let misplaced = || reports::misplaced(&document());
        self.add("could_stand", kind, Entry::CouldStand, misplaced);
        self.add_refused_text(kind, bytes);
    }

    /// Nobody formats data, but whoever does is told so: they are looked at to the end for every fault.
    fn add_refused_text(&mut self, kind: &'static str, bytes: usize) {
        let data = || reports::base64(bytes).into_bytes();
        self.add(FORMAT_REFUSED, kind, Entry::Format, data);
    }

    /// A field of the first segment, what a result says by its component and by the first subcomponent
    /// of that, and a field behind it.
    fn add_parts(
        &mut self,
        kind: &'static str,
        result: usize,
        component: usize,
        message: impl Fn() -> Vec<u8>,
    ) {
        let part = Address { repetition: 1, component, ..field(result, 5) };
        let lookups = [
            ("find MSH-10", field(0, 10)),
            ("find OBX-5, a component", part),
            ("find OBX-5, a subcomponent", Address { subcomponent: 1, ..part }),
            ("find OBX-11", field(result, 11)),
        ];
        for (title, address) in lookups {
            self.add(title, kind, Entry::Find(address), &message);
        }
    }

    /// An element is found in a message that is read first, so the reading of that message is measured
    /// as well.
    fn add_lookups(&mut self) {
        for (kind, segments, bytes) in [(SMALL, 7, 1_024), (LARGE, 256, 32_768)] {
            let report = || reports::report_of_visit(segments, bytes);
            self.add("read, with a visit", kind, Entry::Read, report);
            self.add("find PV1-2", kind, Entry::Find(field(2, 2)), report);
            self.add("find PV1-50", kind, Entry::Find(field(2, 50)), report);
        }
        let class = Entry::Find(field(3, 2));
        self.add("read, an admission", BRIEF, Entry::Read, reports::brief_admission);
        self.add("read, an admission", FULL, Entry::Read, || reports::full_admission(BEHIND));
        self.add("read, an admission", LONG, Entry::Read, || reports::long_visit(BEHIND));
        self.add("find PV1-2 of an admission", BRIEF, class, reports::brief_admission);
        self.add("find PV1-2 of an admission", FULL, class, || reports::full_admission(BEHIND));
        self.add("find PV1-2 of a long visit", LONG, class, || reports::long_visit(BEHIND));
    }
}

/// A whole field of a segment.
fn field(segment: usize, field: usize) -> Address {
    Address { segment, field, repetition: 0, component: 0, subcomponent: 0 }
}

/// A message as it stands on a line.
fn framed(message: &[u8]) -> Vec<u8> {
    [b"\x0B", message, b"\x1C\r"].concat()
}

/// A text as it is written, cut to so many bytes, or before the sequence that would be cut.
fn written_text(most: usize) -> Vec<u8> {
    let mut written = vec![0; 5 * most];
    let answer = baseline::escape(&DELIMITERS, &reports::text(most), &mut written);
    written.truncate(answer.length.min(most));
    let escape = DELIMITERS[3];
    let marks = written.iter().filter(|&&byte| byte == escape).count();
    if let (1, Some(begun)) = (marks % 2, written.iter().rposition(|&byte| byte == escape)) {
        written.truncate(begun);
    }
    written
}
