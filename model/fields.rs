//! Fields: the judge of document 01 over what a message's fields hold, by the table of its chapter
//! 'Fields judged'. They are "judged on raw bytes", with no unescaping.

use crate::element::{self, Part, State};
use crate::reading::{refuse, Refusal, COMPONENT_SEPARATOR, LONGEST_ID, REPETITION_SEPARATOR};
use crate::{numbers, times};
use JudgedPart::{Component1, Whole};
use Kind::{Any, AsObx2Says, ControlId, Date, List, Numeric, SequenceNumber, TimeOfDay, TimeStamp};

/// A line of the table. "Columns: part judged; type; R required; Y may repeat."
struct Row {
    segment: &'static str,
    field: usize,
    part: JudgedPart,
    kind: Kind,
    required: bool,
    may_repeat: bool,
}

/// "'Whole' is one repetition."
#[derive(Clone, Copy)]
enum JudgedPart {
    Whole,
    Component1,
}

/// A type of the table. The words of a list are parted by spaces.
#[derive(Clone, Copy)]
enum Kind {
    Any,
    AsObx2Says,
    /// "1 to 199 bytes".
    ControlId,
    Date,
    List(&'static str),
    Numeric,
    SequenceNumber,
    TimeOfDay,
    TimeStamp,
}

/// The rows "as above", where OBR-1 and OBX-1 have one each. MSH-12 is held to a list of one
/// (ruling 24).
const TABLE: [Row; 16] = [
    row("MSH", 7, Component1, TimeStamp, "R"),
    row("MSH", 10, Whole, ControlId, "R"),
    row("MSH", 11, Component1, List("D P T"), "R"),
    row("MSH", 12, Component1, List("2.4"), "R"),
    row("PID", 3, Whole, Any, "R Y"),
    row("PID", 5, Whole, Any, "R Y"),
    row("PID", 7, Component1, TimeStamp, ""),
    row("PID", 8, Whole, List("M F O U"), ""),
    row("OBR", 1, Whole, SequenceNumber, ""),
    row("OBX", 1, Whole, SequenceNumber, ""),
    row("OBX", 2, Whole, List("CE DT ED FT NM RP SN ST TM TS TX"), ""),
    row("OBX", 3, Whole, Any, "R"),
    row("OBX", 5, Whole, AsObx2Says, "Y"),
    row("OBX", 11, Whole, List("C D F I N O P R S U W X"), "R"),
    row("OBX", 14, Component1, TimeStamp, ""),
    row("MSA", 1, Whole, List("AA AE AR"), "R"),
];

const fn row(
    segment: &'static str,
    field: usize,
    part: JudgedPart,
    kind: Kind,
    marks: &str,
) -> Row {
    let required = matches!(marks.as_bytes(), [b'R', ..]);
    let may_repeat = matches!(marks.as_bytes(), [.., b'Y']);
    Row { segment, field, part, kind, required, may_repeat }
}

/// Why a field is refused: the paper's number, and "segment, field and repetition for 31 to 37".
pub struct Fault {
    pub number: u32,
    pub segment: usize,
    pub field: usize,
    pub repetition: usize,
}

/// "Order: segments as sent, rows as above." "The first fault found in this order ends the
/// judging." The message is one that was read.
pub fn judge(message: &[u8]) -> Result<(), Fault> {
    for (number, segment) in element::segments(message).into_iter().enumerate() {
        let name = &message[segment.start..segment.start + 3];
        let fields = element::fields(message, segment, number == 0);
        let judged = Segment { message, fields };
        for row in TABLE.iter().filter(|row| row.segment.as_bytes() == name) {
            judged.judge_row(row).map_err(|refusal| Fault {
                number: refusal.number,
                segment: number,
                field: row.field,
                repetition: refusal.place,
            })?;
        }
    }
    Ok(())
}

/// A segment that is judged, by its fields. The place of a refusal is the repetition here.
struct Segment<'a> {
    message: &'a [u8],
    fields: Vec<Part>,
}

impl Segment<'_> {
    /// "In a row 31 or 34, then 36, then 35, then the repetitions in turn."
    fn judge_row(&self, row: &Row) -> Result<(), Refusal> {
        self.check_required(row)?;
        self.check_count(row)?;
        self.check_value_type(row)?;
        self.check_repetitions(row)
    }

    /// 31, 34: "required part absent or empty; null". "R asks that the part in repetition 1 is
    /// present."
    fn check_required(&self, row: &Row) -> Result<(), Refusal> {
        match self.state_of_first(row.field, row.part) {
            State::Absent | State::Empty if row.required => refuse(31, 1),
            State::Null if row.required => refuse(34, 1),
            _ => Ok(()),
        }
    }

    /// 36: "more than one repetition, empty ones counted, where no Y".
    fn check_count(&self, row: &Row) -> Result<(), Refusal> {
        if self.repetitions(row.field).len() > 1 && !row.may_repeat {
            return refuse(36, 1);
        }
        Ok(())
    }

    /// 35: "some repetition of OBX-5 present, OBX-2 repetition 1 not", by whole repetitions
    /// (ruling 23).
    fn check_value_type(&self, row: &Row) -> Result<(), Refusal> {
        if !matches!(row.kind, AsObx2Says) {
            return Ok(());
        }
        let present = |repetition: &Part| self.state(repetition) == State::Present;
        let some_present = self.repetitions(row.field).iter().any(present);
        if some_present && self.state_of_first(2, Whole) != State::Present {
            return refuse(35, 1);
        }
        Ok(())
    }

    /// "Empty and null pass where not R."
    fn check_repetitions(&self, row: &Row) -> Result<(), Refusal> {
        let (part, kind) = self.part_and_kind(row);
        for (repetition, whole) in (1..).zip(self.repetitions(row.field)) {
            let judged = self.judged_part(whole, part);
            if self.state(&judged) == State::Present {
                check_kind(kind, &self.message[judged])
                    .map_err(|refusal| Refusal { place: repetition, ..refusal })?;
            }
        }
        Ok(())
    }

    /// OBX-5: "whole; component 1 for TS", "as OBX-2 says; only NM, DT, TM, TS are judged".
    fn part_and_kind(&self, row: &Row) -> (JudgedPart, Kind) {
        if !matches!(row.kind, AsObx2Says) {
            return (row.part, row.kind);
        }
        let value_type = self.repetitions(2).first().cloned().unwrap_or_default();
        match &self.message[value_type] {
            b"NM" => (Whole, Numeric),
            b"DT" => (Whole, Date),
            b"TM" => (Whole, TimeOfDay),
            b"TS" => (Component1, TimeStamp),
            _ => (Whole, Any),
        }
    }

    /// The repetitions of a field, of which one that is absent has none.
    fn repetitions(&self, field: usize) -> Vec<Part> {
        match self.fields.get(field - 1) {
            Some(field) => self.split(field.clone(), REPETITION_SEPARATOR),
            None => Vec::new(),
        }
    }

    fn judged_part(&self, repetition: Part, part: JudgedPart) -> Part {
        match part {
            Whole => repetition,
            Component1 => self.split(repetition, COMPONENT_SEPARATOR).remove(0),
        }
    }

    fn split(&self, part: Part, separator: usize) -> Vec<Part> {
        element::split(self.message, part, self.message[separator])
    }

    /// The state of a field's part in repetition 1.
    fn state_of_first(&self, field: usize, part: JudgedPart) -> State {
        match self.repetitions(field).first() {
            Some(repetition) => self.state(&self.judged_part(repetition.clone(), part)),
            None => State::Absent,
        }
    }

    fn state(&self, part: &Part) -> State {
        element::state_of(self.message, part)
    }
}

/// 32, 33: "breaks its type's form; not in its list". 37: "over 199 bytes; well formed, but over 18
/// digits". "Lists compare raw bytes" (ruling 24).
fn check_kind(kind: Kind, bytes: &[u8]) -> Result<(), Refusal> {
    match kind {
        Date => times::date(bytes).map(drop),
        Numeric => numbers::numeric(bytes).map(drop),
        SequenceNumber => numbers::sequence_number(bytes).map(drop),
        TimeOfDay => times::time_of_day(bytes).map(drop),
        TimeStamp => times::time_stamp(bytes).map(drop),
        List(words) if !words.split(' ').any(|word| word.as_bytes() == bytes) => refuse(33, 0),
        ControlId if bytes.len() > LONGEST_ID => refuse(37, 0),
        List(_) | ControlId | Any | AsObx2Says => Ok(()),
    }
}
