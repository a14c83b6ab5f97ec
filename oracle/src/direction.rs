//! The direction guess by document 01, byte by byte.

use crate::case::Sides;
use crate::fields::begins;
use crate::wrong::Wrong;

const GIVEN: u32 = 0;
const SWAPPED: u32 = 1;
const UNKNOWN: u32 = 2;
const NO_PROTOCOL: u32 = 3;

pub fn guess(sides: &Sides, wrong: Wrong) -> u32 {
    let port = match sides.protocol {
        1 => 25,
        2 => 110,
        3 => 143,
        _ if wrong == Wrong::UnknownProtocol => return UNKNOWN,
        _ => return NO_PROTOCOL,
    };
    by_port(sides, port, wrong).unwrap_or_else(|| by_payload(sides, wrong))
}

fn by_port(sides: &Sides, port: u16, wrong: Wrong) -> Option<u32> {
    let server = (sides.server_port == port).then_some(GIVEN);
    let client = (sides.client_port == port).then_some(SWAPPED);
    match wrong {
        Wrong::CommandPorts => None,
        Wrong::ClientPortFirst => client.or(server),
        _ => server.or(client),
    }
}

fn by_payload(sides: &Sides, wrong: Wrong) -> u32 {
    let held = |side: Option<&[u8]>| match side {
        Some(bytes) => !(bytes.is_empty() && wrong == Wrong::EmptyUnheld),
        None => false,
    };
    if !held(sides.server) && !held(sides.client) {
        return if wrong == Wrong::NoneHeldGiven { GIVEN } else { UNKNOWN };
    }
    if wrong == Wrong::OneHeldUnknown && !(held(sides.server) && held(sides.client)) {
        return UNKNOWN;
    }
    let greets = |side: Option<&[u8]>| side.is_some_and(|bytes| greeting(sides.protocol, bytes, wrong));
    let client = greets(sides.client) && wrong != Wrong::ClientGreetingOnly;
    if client && wrong == Wrong::ClientFirst {
        return SWAPPED;
    }
    if greets(sides.server) {
        return GIVEN;
    }
    if sides.server.is_some_and(|bytes| command(sides.protocol, bytes, wrong)) || client {
        return SWAPPED;
    }
    if wrong == Wrong::ElseUnknown { UNKNOWN } else { GIVEN }
}

/// What a server says first.
fn greeting(protocol: u32, bytes: &[u8], wrong: Wrong) -> bool {
    let words: &[&[u8]] = match (protocol, wrong) {
        (1, Wrong::GreetingDash) => &[b"220 ", b"421 "],
        (1, Wrong::Greeting421) => &[b"220 ", b"220-"],
        (1, _) => &[b"220 ", b"220-", b"421 ", b"421-"],
        (2, Wrong::OkNoSpace) => &[b"+OK"],
        (2, _) => &[b"+OK "],
        (_, Wrong::OkNoSpace) => &[b"* OK"],
        _ => &[b"* OK "],
    };
    let more = usize::from(wrong == Wrong::GreetingLonger);
    words.iter().any(|word| begins(bytes, word, false) && bytes.len() >= word.len() + more)
}

/// What a client says first.
fn command(protocol: u32, bytes: &[u8], wrong: Wrong) -> bool {
    let any_case = wrong == Wrong::HelloDirectionCase;
    match protocol {
        1 if wrong == Wrong::HelloDirection => begins(bytes, b"HELO", false) || begins(bytes, b"EHLO", false),
        1 => begins(bytes, b"HELO ", any_case) || begins(bytes, b"EHLO ", any_case),
        2 => begins(bytes, b"USER ", wrong == Wrong::UserLowCase),
        _ => tagged_command(bytes, wrong),
    }
}

fn tagged_command(bytes: &[u8], wrong: Wrong) -> bool {
    let (least, far) = match wrong {
        Wrong::CommandNine => (9, 10),
        Wrong::CommandEleven => (11, 10),
        Wrong::CommandFar => (10, 11),
        Wrong::CommandNear => (10, 9),
        _ => (10, 10),
    };
    if bytes.len() < least {
        return false;
    }
    let Some(space) = bytes.iter().take(far).position(|&b| b == b' ') else {
        return false;
    };
    let mark = |b: u8| matches!(b, b'.' | b'+' | b'-');
    let first = bytes[0].is_ascii_alphanumeric() || (wrong == Wrong::CommandFirst && mark(bytes[0]));
    let in_tag = |&b: &u8| b.is_ascii_alphanumeric() || mark(b) || wrong == Wrong::CommandTag;
    let upper = |&b: &u8| match wrong {
        Wrong::CommandLower => b.is_ascii_alphabetic(),
        _ => b.is_ascii_uppercase(),
    };
    first && bytes[..space].iter().all(in_tag) && bytes.get(space + 1).is_some_and(upper)
}
