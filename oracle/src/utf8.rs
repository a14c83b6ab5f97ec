//! Document 02, W8: the characters of a line, by RFC 3629, and which are white space. `wrong` bends one rule.

use crate::wrong::Wrong;

#[derive(Clone, Copy, Debug, PartialEq, Eq)]
pub struct Character {
    pub at: usize,
    pub end: usize,
    pub number: u32,
}

impl Character {
    pub fn is_white(&self, wrong: Wrong) -> bool {
        match self.number {
            9..=13 | 32 => true,
            0x85 => wrong != Wrong::NoNextLine,
            0xa0 => wrong != Wrong::NoBreakDark,
            0x1680 => wrong != Wrong::NoOgham,
            0x2000..=0x200a => wrong != Wrong::NoQuads,
            0x2028 | 0x2029 => wrong != Wrong::NoSeparators,
            0x202f => wrong != Wrong::NoNarrowBreak,
            0x205f => wrong != Wrong::NoMathematical,
            0x3000 => wrong != Wrong::NoIdeographic,
            0x180e => wrong == Wrong::VowelWhite,
            0x200b => wrong == Wrong::ZeroWidthWhite,
            0xfeff => wrong == Wrong::MarkWhite,
            _ => false,
        }
    }
}

/// All characters of a line; none if it is no UTF-8.
pub fn characters(line: &[u8], wrong: Wrong) -> Option<Vec<Character>> {
    let mut all = Vec::new();
    let mut at = 0;
    while at < line.len() {
        let (length, number) = match character(&line[at..], wrong) {
            None if wrong == Wrong::PartlyText => (1, 0xfffd),
            found => found?,
        };
        all.push(Character { at, end: at + length, number });
        at += length;
    }
    Some(all)
}

/// The first character's length and number.
fn character(bytes: &[u8], wrong: Wrong) -> Option<(usize, u32)> {
    let length = match bytes[0].leading_ones() {
        0 => return Some((1, bytes[0].into())),
        ones @ 2..=4 => ones as usize,
        _ => return None,
    };
    let tails = bytes.get(1..length)?;
    if tails.iter().any(|tail| tail & 0xc0 != 0x80) {
        return None;
    }
    let first = u32::from(bytes[0]) & (0x7f >> length);
    let number = tails.iter().fold(first, |bits, &tail| bits << 6 | u32::from(tail & 0x3f));
    let least = [0x80, 0x800, 0x1_0000][length - 2];
    let sound = match number {
        0xd800..=0xdfff => wrong == Wrong::Surrogates,
        0x11_0000.. => wrong == Wrong::PastLast,
        _ => true,
    };
    (sound && (number >= least || wrong == Wrong::Overlong)).then_some((length, number))
}

/// Rust's own reading of one line.
fn as_rust(line: &[u8]) -> Option<Vec<Character>> {
    let text = std::str::from_utf8(line).ok()?;
    Some(text.char_indices().map(|(at, c)| Character { at, end: at + c.len_utf8(), number: c.into() }).collect())
}

/// Our characters are Rust's: of every three bytes, and of four from the edges of the ranges; and so is our white space, of every character.
pub fn holds() -> bool {
    let same = |line: &[u8]| characters(line, Wrong::Nothing) == as_rust(line);
    let three = (0..1u32 << 24).all(|bits| same(&bits.to_be_bytes()[1..]));
    let edges = [0, 0x7f, 0x80, 0x8f, 0x90, 0x9f, 0xa0, 0xbf, 0xc0, 0xff];
    let edge = |number: usize, place: u32| edges[number / 10usize.pow(place) % 10];
    let four = (0..=255u8).all(|first| (0..1000).all(|n| same(&[first, edge(n, 2), edge(n, 1), edge(n, 0)])));
    let white = |c: char| Character { at: 0, end: 0, number: c.into() }.is_white(Wrong::Nothing);
    three && four && (0..=0x10_ffff).filter_map(char::from_u32).all(|c| white(c) == c.is_whitespace())
}
