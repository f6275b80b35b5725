//! Which segments may stand where: the places of a structure as bits of one number, stepped by each
//! segment's name. Numbers 20, 21 and 22.

use crate::bytes::{before, split_once, COMPONENT, FIELD, REPETITION};
use crate::reading::{name, Segments};
use crate::{Refusal, Verdict};

/// A place of a structure: the name that fills it, and the places that may be filled next.
struct Place {
    name: u32,
    next: u32,
}

/// A structure: its places in written order, and those behind which a message may end.
struct Structure {
    places: &'static [Place],
    last: u32,
}

const fn place(letters: &[u8; 3], next: &[u32]) -> Place {
    Place { name: name(letters), next: set(next) }
}

const fn set(places: &[u32]) -> u32 {
    let mut set = 0;
    let mut i = 0;
    while i < places.len() {
        set |= 1 << places[i];
        i += 1;
    }
    set
}

/// MSH { [PID [PD1] [{NK1}] [{NTE}] [PV1 [PV2]]] { [ORC] OBR [{NTE}] [{ [OBX] [{NTE}] }] [{CTI}] } } [DSC]
static REPORT: Structure = Structure {
    places: &[
        place(b"MSH", &[1, 7, 8]),
        place(b"PID", &[2, 3, 4, 5, 7, 8]),
        place(b"PD1", &[3, 4, 5, 7, 8]),
        place(b"NK1", &[3, 4, 5, 7, 8]),
        place(b"NTE", &[4, 5, 7, 8]),
        place(b"PV1", &[6, 7, 8]),
        place(b"PV2", &[7, 8]),
        place(b"ORC", &[8]),
        place(b"OBR", &[9, 10, 11, 12, 7, 8, 1, 13]),
        place(b"NTE", &[9, 10, 11, 12, 7, 8, 1, 13]),
        place(b"OBX", &[10, 11, 12, 7, 8, 1, 13]),
        place(b"NTE", &[10, 11, 12, 7, 8, 1, 13]),
        place(b"CTI", &[12, 7, 8, 1, 13]),
        place(b"DSC", &[]),
    ],
    last: set(&[8, 9, 10, 11, 12, 13]),
};

/// MSH MSA [ERR]
static ACKNOWLEDGEMENT: Structure = Structure {
    places: &[place(b"MSH", &[1]), place(b"MSA", &[2]), place(b"ERR", &[])],
    last: set(&[1, 2]),
};

/// MSH EVN { PID [PD1] MRG [PV1] }
static MERGE: Structure = Structure {
    places: &[
        place(b"MSH", &[1]),
        place(b"EVN", &[2]),
        place(b"PID", &[3, 4]),
        place(b"PD1", &[4]),
        place(b"MRG", &[5, 2]),
        place(b"PV1", &[2]),
    ],
    last: set(&[4, 5]),
};

/// MSH EVN PID [{NK1}] PV1 [PV2] [{AL1}] [{IN1}] [ZVI] [ZPD]
static ADMISSION: Structure = Structure {
    places: &[
        place(b"MSH", &[1]),
        place(b"EVN", &[2]),
        place(b"PID", &[3, 4]),
        place(b"NK1", &[3, 4]),
        place(b"PV1", &[5, 6, 7, 8, 9]),
        place(b"PV2", &[6, 7, 8, 9]),
        place(b"AL1", &[6, 7, 8, 9]),
        place(b"IN1", &[7, 8, 9]),
        place(b"ZVI", &[9]),
        place(b"ZPD", &[]),
    ],
    last: set(&[4, 5, 6, 7, 8, 9]),
};

/// MSH EVN PID PV1 [PV2] [ZVI] [ZPD]
static TRANSFER: Structure = Structure {
    places: &[
        place(b"MSH", &[1]),
        place(b"EVN", &[2]),
        place(b"PID", &[3]),
        place(b"PV1", &[4, 5, 6]),
        place(b"PV2", &[5, 6]),
        place(b"ZVI", &[6]),
        place(b"ZPD", &[]),
    ],
    last: set(&[3, 4, 5, 6]),
};

/// The names that could have stood at a place, as the set of places that they would have filled.
#[derive(Clone, Copy, Default)]
pub struct Names {
    structure: Option<&'static Structure>,
    places: u32,
}

impl Names {
    /// The names in the structure's order, each once.
    #[inline]
    pub fn iter(self) -> impl Iterator<Item = u32> {
        let places = self.structure.map_or(&[][..], |structure| structure.places);
        let stands = move |number: usize| self.places >> number & 1 == 1;
        let names = places.iter().enumerate().filter(move |&(number, place)| {
            let before = || places[..number].iter().enumerate();
            stands(number)
                && !before().any(|(other, same)| stands(other) && same.name == place.name)
        });
        names.map(|(_, place)| place.name)
    }
}

pub fn judge(segments: Segments) -> Result<(), Verdict> {
    let Some(structure) = structure_of(segments) else {
        return Err(Refusal { number: 20, place: 0 }.into());
    };
    let mut places = set(&[0]);
    let mut could_end = false;
    for (number, segment) in segments.iter().enumerate() {
        let sent = name(segment);
        let (mut known, mut next, mut ends) = (false, 0, false);
        for (number, place) in structure.places.iter().enumerate() {
            if place.name == sent {
                known = true;
                if places >> number & 1 == 1 {
                    next |= place.next;
                    ends |= structure.last >> number & 1 == 1;
                }
            }
        }
        if !known && segment[0] == b'Z' {
            continue;
        }
        if next == 0 && !ends {
            return Err(misfit(21, number, could_end, structure, places));
        }
        (places, could_end) = (next, ends);
    }
    if could_end {
        return Ok(());
    }
    Err(misfit(22, segments.ends.len(), false, structure, places))
}

#[cold]
fn misfit(
    number: u32,
    place: usize,
    could_end: bool,
    structure: &'static Structure,
    places: u32,
) -> Verdict {
    let names = Names { structure: Some(structure), places };
    Verdict { number, place, could_end, names, ..Verdict::default() }
}

/// The structure by components 1 and 2 of MSH-9, repetition 1.
fn structure_of(segments: Segments) -> Option<&'static Structure> {
    let delimiters = segments.delimiters();
    let header = &segments.message[..segments.ends[0] as usize];
    let field = header.split(|&byte| byte == delimiters[FIELD]).nth(8)?;
    let first = before(field, delimiters[REPETITION]);
    let (kind, rest) = split_once(first, delimiters[COMPONENT]);
    let event = rest.map_or(&b""[..], |rest| before(rest, delimiters[COMPONENT]));
    match (kind, event) {
        (b"ORU", b"R01") => Some(&REPORT),
        (b"ACK", _) => Some(&ACKNOWLEDGEMENT),
        (b"ADT", b"A40") => Some(&MERGE),
        (b"ADT", b"A01") => Some(&ADMISSION),
        (b"ADT", b"A02" | b"A12") => Some(&TRANSFER),
        _ => None,
    }
}
