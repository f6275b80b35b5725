//! Structures: the judge of document 01 over the order of a message's segments. It tries all that the
//! brackets and braces of a structure allow, as the paper prints them, from the first segment on.
//! "Judges answer a reading fault first, then 20, 21, 22, then fields": this one stops after 22
//! (ruling 17).

use crate::element::{self, Address};
use crate::reading::{self, refuse, Refusal};
use std::collections::BTreeSet;

pub const ORU_R01: &str = "MSH { [PID [PD1] [{NK1}] [{NTE}] [PV1 [PV2]]] \
                           { [ORC] OBR [{NTE}] [{ [OBX] [{NTE}] }] [{CTI}] } } [DSC]";
pub const ACK: &str = "MSH MSA [ERR]";
pub const ADT_A40: &str = "MSH EVN { PID [PD1] MRG [PV1] }";
pub const ADT_A01: &str = "MSH EVN PID [{NK1}] PV1 [PV2] [{AL1}] [{IN1}] [ZVI] [ZPD]";
pub const ADT_A02_AND_A12: &str = "MSH EVN PID PV1 [PV2] [ZVI] [ZPD]";

/// Why a message does not fit: "the names that could stand", and "a yes or no for whether the
/// message could have ended".
pub struct Misfit {
    pub refusal: Refusal,
    pub could_end: bool,
    pub names: Vec<&'static str>,
}

/// "Every answer but 21 and 22 lists nothing, with a no."
impl From<Refusal> for Misfit {
    fn from(refusal: Refusal) -> Misfit {
        Misfit { refusal, could_end: false, names: Vec::new() }
    }
}

/// A reading fault, 20, 21 or 22.
pub fn judge(message: &[u8]) -> Result<(), Misfit> {
    reading::read(message)?;
    let pieces = pieces_of(structure_of(message)?);
    let names = names_sent(message);
    // "A segment whose name begins with Z and isn't in the structure is taken out first. Places in
    // answers count the segments as sent."
    let judged: Vec<usize> = (0..names.len())
        .filter(|&segment| names[segment][0] != b'Z' || names_segment(&pieces, names[segment]))
        .collect();
    let judged_names = judged.iter().map(|&segment| names[segment]).collect();
    match Trial::of(&pieces, judged_names).misfit() {
        Some(misfit) => {
            // 22's place counts all segments sent (ruling 19).
            let segment = judged.get(misfit.refusal.place).copied().unwrap_or(names.len());
            Err(Misfit { refusal: Refusal { place: segment, ..misfit.refusal }, ..misfit })
        }
        None => Ok(()),
    }
}

/// "The type is components 1 and 2 of MSH-9, repetition 1, compared as raw bytes; component 3 isn't
/// looked at." 'ACK, any event' includes none (ruling 18). 20: "no structure for the type".
fn structure_of(message: &[u8]) -> Result<&'static str, Refusal> {
    let kind = component_of_type(message, 1)?;
    let event = component_of_type(message, 2)?;
    match (kind, event) {
        (b"ORU", b"R01") => Ok(ORU_R01),
        (b"ACK", _) => Ok(ACK),
        (b"ADT", b"A40") => Ok(ADT_A40),
        (b"ADT", b"A01") => Ok(ADT_A01),
        (b"ADT", b"A02" | b"A12") => Ok(ADT_A02_AND_A12),
        _ => refuse(20, 0),
    }
}

/// A component that is absent has no bytes, and is no type either.
fn component_of_type(message: &[u8], component: u64) -> Result<&[u8], Refusal> {
    let address = Address { segment: 0, field: 9, repetition: 1, component, subcomponent: 0 };
    let element = element::find(message, &address)?;
    Ok(&message[element.part])
}

/// The names of all segments, in their order.
pub fn names_sent(message: &[u8]) -> Vec<&[u8]> {
    let segments = element::segments(message);
    segments.iter().map(|segment| &message[segment.start..segment.start + 3]).collect()
}

/// A part of a structure. A segment has the number of its place, counted from 0 as they are written.
enum Piece {
    Segment { name: &'static str, place: usize },
    Optional(Vec<Piece>),
    Repeated(Vec<Piece>),
}

/// The pieces of a structure's line.
fn pieces_of(line: &'static str) -> Vec<Piece> {
    let mut rest = line;
    let mut places = 0;
    take_pieces(&mut rest, &mut places)
}

/// Takes pieces off the line, up to its end or to a sign that closes. "Brackets optional, braces one
/// or more."
fn take_pieces(rest: &mut &'static str, places: &mut usize) -> Vec<Piece> {
    let mut pieces = Vec::new();
    loop {
        let line = rest.trim_start();
        *rest = line.get(1..).unwrap_or("");
        match line.chars().next() {
            Some('[') => pieces.push(Piece::Optional(take_pieces(rest, places))),
            Some('{') => pieces.push(Piece::Repeated(take_pieces(rest, places))),
            Some(']' | '}') | None => return pieces,
            Some(_) => {
                let (name, behind) = line.split_at(3);
                pieces.push(Piece::Segment { name, place: *places });
                *rest = behind;
                *places += 1;
            }
        }
    }
}

/// Whether the structure names this segment anywhere.
fn names_segment(pieces: &[Piece], sent: &[u8]) -> bool {
    pieces.iter().any(|piece| match piece {
        Piece::Segment { name, .. } => name.as_bytes() == sent,
        Piece::Optional(inside) | Piece::Repeated(inside) => names_segment(inside, sent),
    })
}

/// All ways at once to match the names with a structure.
struct Trial<'a> {
    names: Vec<&'a [u8]>,
    /// For each number of names that were matched: the places that were tried for the next one, each
    /// with the name that it asks for.
    tried: Vec<BTreeSet<(usize, &'static str)>>,
    /// How many names were matched where the structure came to its end.
    ends: BTreeSet<usize>,
}

impl Trial<'_> {
    fn of<'a>(pieces: &[Piece], names: Vec<&'a [u8]>) -> Trial<'a> {
        let tried = vec![BTreeSet::new(); names.len() + 1];
        let mut trial = Trial { names, tried, ends: BTreeSet::new() };
        trial.ends = trial.match_all(pieces, BTreeSet::from([0]));
        trial
    }

    /// How many names can have been matched behind these pieces, if it can be each of `starts`
    /// before them.
    fn match_all(&mut self, pieces: &[Piece], starts: BTreeSet<usize>) -> BTreeSet<usize> {
        pieces.iter().fold(starts, |starts, piece| self.match_piece(piece, starts))
    }

    fn match_piece(&mut self, piece: &Piece, starts: BTreeSet<usize>) -> BTreeSet<usize> {
        match piece {
            Piece::Segment { name, place } => self.match_segment(name, *place, starts),
            Piece::Optional(inside) => {
                let ends = self.match_all(inside, starts.clone());
                &starts | &ends
            }
            Piece::Repeated(inside) => self.match_repeated(inside, starts),
        }
    }

    fn match_segment(
        &mut self,
        name: &'static str,
        place: usize,
        starts: BTreeSet<usize>,
    ) -> BTreeSet<usize> {
        for &start in &starts {
            self.tried[start].insert((place, name));
        }
        let stands = |start: &usize| self.names.get(*start) == Some(&name.as_bytes());
        starts.into_iter().filter(stands).map(|start| start + 1).collect()
    }

    /// "Braces one or more." Another round begins only at an end that no round before it has come
    /// to: so a body that may be empty is not repeated for ever.
    fn match_repeated(&mut self, inside: &[Piece], mut starts: BTreeSet<usize>) -> BTreeSet<usize> {
        let mut ends = BTreeSet::new();
        while !starts.is_empty() {
            let reached = self.match_all(inside, starts);
            starts = &reached - &ends;
            ends.extend(reached);
        }
        ends
    }

    /// 21: "segment can't stand there", at the number of names that could. 22: "ended early". A place
    /// was tried for the next name only where all names before it could stand: so the names could
    /// stand up to the last that any place was tried for, or that the structure ended before.
    fn misfit(&self) -> Option<Misfit> {
        let could_stand = (0..=self.names.len()).rev().find(|&count| self.could_stand(count))?;
        let could_end = self.ends.contains(&could_stand);
        let all_stand = could_stand == self.names.len();
        if all_stand && could_end {
            return None;
        }
        let refusal = Refusal { number: if all_stand { 22 } else { 21 }, place: could_stand };
        Some(Misfit { refusal, could_end, names: self.next_names(could_stand) })
    }

    fn could_stand(&self, count: usize) -> bool {
        !self.tried[count].is_empty() || self.ends.contains(&count)
    }

    /// "The names that could stand are listed once each, by the earliest place possible there": of
    /// those tried behind so many names, and no others (ruling 20).
    fn next_names(&self, count: usize) -> Vec<&'static str> {
        let mut names = Vec::new();
        for &(_, name) in &self.tried[count] {
            if !names.contains(&name) {
                names.push(name);
            }
        }
        names
    }
}
