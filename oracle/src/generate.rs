//! Cases by seed and number: grammar-made, then damaged, cut and spliced copies, soups of tokens
//! behind a short beginning, direction cases, and (apart) all short runs of tokens in order.

use crate::case::{Case, ENOUGH, Sides};
use crate::grammar::Builder;
use crate::rng::Rng;
use crate::wide;

#[derive(Clone, Copy)]
pub struct Generator {
    pub seed: u64,
    pub kind: Kind,
}

#[derive(Clone, Copy, PartialEq, Eq)]
pub enum Kind {
    Ascii,
    AnyByte,
    /// IMAP sessions with characters above 127.
    WideImap,
    /// Every run of tokens behind each beginning, shortest first.
    Short,
}

impl Generator {
    pub fn case(&self, number: u64) -> Case {
        if self.kind == Kind::Short {
            return short(number);
        }
        let mut rng = Rng::new(self.seed, number);
        let mut case = match rng.below(20) {
            _ if self.kind == Kind::WideImap => wide::case(&mut rng),
            0..=1 => direction(&mut rng, self.kind),
            2..=4 => soup(&mut rng),
            _ => session(&mut rng),
        };
        if case.entry != b'D' {
            if self.kind == Kind::AnyByte {
                high_bytes(&mut rng, &mut case.bytes);
            }
            if rng.chance(10) {
                case.slots = rng.pick(&[&3, &8, &40]) + rng.below(6) as u32 - 3;
            }
        }
        case
    }
}

fn session(rng: &mut Rng) -> Case {
    let entry = rng.pick(&[&b'S', &b'P', &b'I', &b'S', &b'P', &b'I', &b's']).to_owned();
    let mut bytes = Builder::new(rng, entry).session();
    match rng.below(20) {
        0..=2 => cut(rng, &mut bytes),
        3..=5 => {
            for _ in 0..1 + rng.below(3) {
                damage(rng, &mut bytes);
            }
        }
        6 => {
            let other = Builder::new(rng, entry).session();
            splice(rng, &mut bytes, &other);
        }
        7 if rng.chance(10) => stretch(rng, &mut bytes),
        _ => {}
    }
    Case { entry, slots: ENOUGH, bytes }
}

fn cut(rng: &mut Rng, bytes: &mut Vec<u8>) {
    let end = rng.below(bytes.len() + 1);
    bytes.truncate(end);
}

fn splice(rng: &mut Rng, bytes: &mut Vec<u8>, other: &[u8]) {
    cut(rng, bytes);
    let from = rng.below(other.len() + 1);
    bytes.extend(&other[from..]);
}

const TELLING: &[u8] = b"\r\n-.\t :;\"{}>qb=0+A\x0b\x0c\x00\x7f";

fn damage(rng: &mut Rng, bytes: &mut Vec<u8>) {
    if bytes.is_empty() {
        return;
    }
    let at = rng.below(bytes.len());
    let byte = TELLING[rng.below(TELLING.len())];
    match rng.below(6) {
        0 => bytes[at] = byte,
        1 => bytes.insert(at, byte),
        2 => drop(bytes.remove(at)),
        3 => bytes[at] ^= 0x20,
        4 => {
            let end = (at + 1 + rng.below(12)).min(bytes.len());
            let piece = bytes[at..end].to_vec();
            let to = rng.below(bytes.len() + 1);
            bytes.splice(to..to, piece);
        }
        _ => {
            let end = (at + 1 + rng.below(12)).min(bytes.len());
            bytes.drain(at..end);
        }
    }
    bytes.iter_mut().for_each(|b| *b &= 0x7f);
}

/// Up to lengths around 3,072.
fn stretch(rng: &mut Rng, bytes: &mut Vec<u8>) {
    let length = 3_060 + rng.below(24);
    let at = rng.below(bytes.len() + 1);
    let missing = length.saturating_sub(bytes.len());
    let filler = b"a line of filler text\r\n".iter().copied().cycle().take(missing);
    bytes.splice(at..at, filler);
}

const HEAD: &str = "HELO\nMAIL FROM:\nDATA\n";

const PARTS: &[&str] = &["\r\n", "\n", "\r", "--q", "--", "-", "q", ".", "--b"];
const FIELDS: &[&str] = &["boundary=", "\"", "q", ";", " ", "\r\n", "\r", "\n", "\t", "Content-Type: ", "\r\n\r\n--q"];
const ENVELOPE: &[&str] =
    &["HELO", "\r\n", "\n", "MAIL FROM:", " <", ">", "RCPT TO: <", "DATA", "STARTTLS", "AUTH LOGIN", " ", "a"];
const REPLIES: &[&str] = &["221", "22", "1", " ", "\r\n", "\n", "\r"];
const STATUS: &[&str] = &["+OK", " ", "\t", "12", "4294967295", "octets", "tls", "\r\n", "\n", "\r", "\u{b}", "."];
const COMMANDS: &[&str] = &["a", " ", "\u{b}", "APPEND", "{", "4", "}", "+", "\r\n", ":", "\n"];

/// Beginnings that lead straight to a place where much can happen, with the tokens to put behind
/// them. An SMTP client's begins with HEAD unless it is empty.
const BEGINNINGS: [(u8, &str, &[&str]); 15] = [
    (b'S', "Content-Type: boundary=q\r\n\r\n", PARTS),
    (b'S', "Content-Type: boundary=q\r\n\r\n--q\r\n", PARTS),
    (b'P', "+OK 1 octets\r\nContent-Type: boundary=q\r\n\r\n--q\r\n\r\n", PARTS),
    (b'P', "+OK 1 octets\r\nContent-Type: boundary=q\r\n\r\n--q\r\n\r\n--q--", PARTS),
    (
        b'S',
        "Content-Type: boundary=q\r\n\r\n--q\r\nContent-Type: boundary=b\r\n\r\n--b\r\n\r\n--b--",
        PARTS,
    ),
    (b'I', "a APPEND {46}\r\nContent-Type: boundary=qqq\r\n\r\n--qqq\r\n\r\n--qqq--", PARTS),
    (b'I', "a APPEND {50}\r\nContent-Type: boundary=qqq\r\n\r\n--qqq\r\n\r\n--qqq--", PARTS),
    (b'S', "\r\n", PARTS),
    (b'S', "Content-Type: ", FIELDS),
    (b'I', "a APPEND {30}\r\nContent-Type: x\n", FIELDS),
    (b'I', "a APPEND {12}\r\n", COMMANDS),
    (b'I', "", COMMANDS),
    (b'S', "", ENVELOPE),
    (b's', "", REPLIES),
    (b'P', "", STATUS),
];

fn begun(entry: u8, beginning: &str) -> Vec<u8> {
    let head = if entry == b'S' && !beginning.is_empty() { HEAD } else { "" };
    [head.as_bytes(), beginning.as_bytes()].concat()
}

fn soup(rng: &mut Rng) -> Case {
    let (entry, beginning, tokens) = BEGINNINGS[rng.below(BEGINNINGS.len())];
    let mut bytes = begun(entry, beginning);
    for _ in 0..rng.below(16) {
        let from = if rng.chance(10) { FIELDS } else { tokens };
        bytes.extend(rng.pick(from).as_bytes());
    }
    Case { entry, slots: ENOUGH, bytes }
}

/// Case `number` of all short runs of tokens: beginnings in turn, runs by length and then by token.
fn short(number: u64) -> Case {
    let all = BEGINNINGS.len() as u64;
    let (entry, beginning, tokens) = BEGINNINGS[(number % all) as usize];
    let mut bytes = begun(entry, beginning);
    let mut left = number / all;
    while left > 0 {
        left -= 1;
        bytes.extend(tokens[(left % tokens.len() as u64) as usize].as_bytes());
        left /= tokens.len() as u64;
    }
    Case { entry, slots: ENOUGH, bytes }
}

const WIDE: [&str; 16] = [
    "\u{a0}", "\u{85}", "\u{3000}", "\u{2028}", "\u{1680}", "\u{e9}", "\u{c9}", "\u{212a}", "\u{17f}", "\u{130}",
    "\u{feff}", "\u{1f600}", "\u{661}", "\u{200b}", "\u{3a3}", "\u{df}",
];

/// Puts in characters above 127, and now and then a lone byte that makes the line no UTF-8.
pub fn high_bytes(rng: &mut Rng, bytes: &mut Vec<u8>) {
    for _ in 0..rng.below(4) {
        let at = rng.below(bytes.len() + 1);
        if rng.chance(5) {
            bytes.insert(at, 128 + rng.below(128) as u8);
        } else {
            bytes.splice(at..at, rng.pick(&WIDE).bytes());
        }
    }
}

fn direction(rng: &mut Rng, kind: Kind) -> Case {
    let protocol = if rng.chance(5) {
        rng.pick(&[&0, &4, &u32::MAX]).to_owned()
    } else {
        rng.pick(&[&1, &2, &3, &3]).to_owned()
    };
    let mut port = || rng.pick(&[&5000, &5000, &5000, &5000, &5000, &5000, &0, &25, &110, &143, &24]).to_owned();
    let ports = [port(), port()];
    let marks = rng.pick(&[&3, &3, &3, &2, &1, &0, &3]).to_owned();
    let mut client = payload(rng, protocol);
    let mut server = payload(rng, protocol);
    if kind == Kind::AnyByte {
        high_bytes(rng, &mut client);
        high_bytes(rng, &mut server);
    }
    Sides::case(protocol, ports, marks, &client, &server)
}

fn payload(rng: &mut Rng, protocol: u32) -> Vec<u8> {
    let words: &[&str] = match protocol {
        1 => &[
            "220 ", "220-", "421 ", "421-", "HELO ", "EHLO ", "220", "2200", "HELO", "EHLO", "helo ", "421", "HELOx",
            "250 ",
        ],
        2 => &["+OK ", "USER ", "+OK", "USER", "user ", "+OKx", "-ERR ", "+ok "],
        _ => &["* OK ", "* OK", "* BYE ", "* OKx", "* ok "],
    };
    let mut bytes = if rng.chance(if protocol == 3 { 60 } else { 5 }) {
        tagged(rng)
    } else {
        let mut bytes = rng.pick(words).as_bytes().to_vec();
        bytes.extend(&b"a.example ready"[..rng.below(12)]);
        bytes
    };
    match rng.below(12) {
        0 => cut(rng, &mut bytes),
        1 => damage(rng, &mut bytes),
        _ => {}
    }
    bytes
}

/// A tag, a space, a command, with lengths around ten.
fn tagged(rng: &mut Rng) -> Vec<u8> {
    let mut bytes = Vec::new();
    let letters = b"aZ09.+-";
    let first = if rng.chance(20) { letters.len() } else { 4 };
    for at in 0..rng.below(12) {
        let end = if at == 0 { first } else { letters.len() };
        bytes.push(if rng.chance(2) { b'_' } else { letters[rng.below(end)] });
    }
    bytes.push(b' ');
    bytes.push(rng.pick_odd(25, &["L", "A", "Z"], &["l", "a", "z", "1", " ", "{", "@", "["]).as_bytes()[0]);
    bytes.resize(bytes.len() + rng.below(10), b'X');
    if rng.chance(30) {
        bytes.truncate(7 + rng.below(5));
    }
    bytes
}
