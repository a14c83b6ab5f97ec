//! A case (an entry, slots, bytes), its answer, and both as bytes in a file.

use crate::fields::UNRECOGNISED;
use std::fmt::{self, Write};

pub type Event = [u32; 4];

/// Slots: one per byte.
pub const ENOUGH: u32 = u32::MAX;

#[derive(Clone, PartialEq, Eq, Debug, Default)]
pub struct Listing {
    pub events: Vec<Event>,
    pub result: u32,
    pub place: u32,
}

#[derive(Clone, PartialEq, Eq, Debug)]
pub enum Answer {
    Session(Listing),
    Direction(u32),
    /// The Rust panicked, or would have made a `str` of bytes that are no UTF-8.
    Unjudged(String),
}

impl Listing {
    /// As the Rust says it: a body's encoding that is not recognised is none there.
    pub fn as_rust(mut self) -> Listing {
        for event in &mut self.events {
            if let [3..=5, _, _, UNRECOGNISED] = event {
                event[3] = 0;
            }
        }
        self
    }
}

impl Answer {
    pub fn as_rust(self) -> Answer {
        match self {
            Answer::Session(listing) => Answer::Session(listing.as_rust()),
            other => other,
        }
    }
}

impl fmt::Display for Answer {
    fn fmt(&self, out: &mut fmt::Formatter) -> fmt::Result {
        match self {
            Answer::Direction(side) => writeln!(out, "{side}"),
            Answer::Unjudged(why) => writeln!(out, "unjudged: {why}"),
            Answer::Session(listing) => {
                for [kind, offset, length, encoding] in &listing.events {
                    writeln!(out, "{kind} {offset} {length} {encoding}")?;
                }
                writeln!(out, "{} {} {}", listing.result, listing.place, listing.events.len())
            }
        }
    }
}

#[derive(Clone, PartialEq, Eq, Debug)]
pub struct Case {
    /// `S`, `s`, `P`, `I`, or `D` for a direction case, whose bytes are a `Sides`.
    pub entry: u8,
    pub slots: u32,
    pub bytes: Vec<u8>,
}

impl Case {
    pub fn session(entry: u8, bytes: &[u8]) -> Case {
        Case { entry, slots: ENOUGH, bytes: bytes.to_vec() }
    }

    pub fn slots(&self) -> usize {
        if self.slots == ENOUGH { self.bytes.len() } else { self.slots as usize }
    }
}

/// What a direction case holds.
pub struct Sides<'a> {
    pub protocol: u32,
    pub client_port: u16,
    pub server_port: u16,
    pub client: Option<&'a [u8]>,
    pub server: Option<&'a [u8]>,
}

impl<'a> Sides<'a> {
    pub fn parse(bytes: &'a [u8]) -> Option<Sides<'a>> {
        let mut from = Bytes(bytes);
        let protocol = from.number()?;
        let client_port = u16::from_le_bytes(from.take(2)?.try_into().ok()?);
        let server_port = u16::from_le_bytes(from.take(2)?.try_into().ok()?);
        let marks = from.take(1)?[0];
        let length = from.number()? as usize;
        let client = from.take(length)?;
        Some(Sides {
            protocol,
            client_port,
            server_port,
            client: (marks & 1 != 0).then_some(client),
            server: (marks & 2 != 0).then_some(from.0),
        })
    }

    pub fn case(protocol: u32, ports: [u16; 2], marks: u8, client: &[u8], server: &[u8]) -> Case {
        let mut bytes = protocol.to_le_bytes().to_vec();
        bytes.extend(ports[0].to_le_bytes());
        bytes.extend(ports[1].to_le_bytes());
        bytes.push(marks);
        bytes.extend((client.len() as u32).to_le_bytes());
        bytes.extend(client);
        bytes.extend(server);
        Case { entry: b'D', slots: ENOUGH, bytes }
    }
}

/// Bytes taken from the front.
pub struct Bytes<'a>(pub &'a [u8]);

impl<'a> Bytes<'a> {
    pub fn take(&mut self, size: usize) -> Option<&'a [u8]> {
        let (taken, left) = self.0.split_at_checked(size)?;
        self.0 = left;
        Some(taken)
    }

    pub fn number(&mut self) -> Option<u32> {
        Some(u32::from_le_bytes(self.take(4)?.try_into().ok()?))
    }

    pub fn case(&mut self) -> Option<Case> {
        let entry = self.take(1)?[0];
        let slots = self.number()?;
        let length = self.number()? as usize;
        let case = Case { entry, slots, bytes: self.take(length)?.to_vec() };
        let sound = match entry {
            b'S' | b's' | b'P' | b'I' => true,
            b'D' => Sides::parse(&case.bytes).is_some(),
            _ => false,
        };
        sound.then_some(case)
    }

    pub fn answer(&mut self, entry: u8) -> Option<Answer> {
        let result = self.number()?;
        if entry == b'D' {
            return Some(Answer::Direction(result));
        }
        let place = self.number()?;
        let mut events = Vec::new();
        for _ in 0..self.number()? {
            events.push([self.number()?, self.number()?, self.number()?, self.number()?]);
        }
        Some(Answer::Session(Listing { events, result, place }))
    }
}

pub fn write_case(out: &mut Vec<u8>, case: &Case) {
    out.push(case.entry);
    out.extend(case.slots.to_le_bytes());
    out.extend((case.bytes.len() as u32).to_le_bytes());
    out.extend(&case.bytes);
}

pub fn write_answer(out: &mut Vec<u8>, answer: &Answer) {
    let mut number = |n: u32| out.extend(n.to_le_bytes());
    match answer {
        Answer::Direction(side) => number(*side),
        Answer::Unjudged(_) => {}
        Answer::Session(listing) => {
            number(listing.result);
            number(listing.place);
            number(listing.events.len() as u32);
            listing.events.iter().flatten().for_each(|n| number(*n));
        }
    }
}

/// Bytes as text, printable ASCII as it is and the rest escaped.
pub fn readable(bytes: &[u8]) -> String {
    let mut text = String::new();
    for part in bytes.escape_ascii() {
        let _ = text.write_char(part as char);
    }
    text
}
