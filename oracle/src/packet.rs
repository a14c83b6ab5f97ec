//! `Packet` in the parsers' types only picks the form of the stream: byte loops, or memchr and memmem.

use memchr::memmem::Finder;

#[derive(Clone, Copy, PartialEq, Eq, Debug)]
pub enum Direction {
    C2s,
    S2c,
    Unknown,
}

pub trait Packet {
    /// The first LF in `bytes`.
    fn line_feed(bytes: &[u8]) -> Option<usize>;
    /// The first place in `region` that holds a delimiter for `boundary`.
    fn delimiter(region: &[u8], finder: &Finder, boundary: &[u8]) -> Option<usize>;
}

pub struct Plain;
pub struct Swift;

fn may_open(region: &[u8], place: usize) -> bool {
    place == 0 || (place >= 2 && region[place - 2] == b'\r' && region[place - 1] == b'\n')
}

impl Packet for Plain {
    fn line_feed(bytes: &[u8]) -> Option<usize> {
        bytes.iter().position(|&b| b == b'\n')
    }

    fn delimiter(region: &[u8], _finder: &Finder, boundary: &[u8]) -> Option<usize> {
        (0..region.len()).find(|&place| {
            let rest = &region[place..];
            may_open(region, place) && rest.starts_with(b"--") && rest[2..].starts_with(boundary)
        })
    }
}

impl Packet for Swift {
    fn line_feed(bytes: &[u8]) -> Option<usize> {
        memchr::memchr(b'\n', bytes)
    }

    fn delimiter(region: &[u8], finder: &Finder, _boundary: &[u8]) -> Option<usize> {
        let mut from = 2;
        while from <= region.len() {
            let found = from + finder.find(&region[from..])?;
            let place = found - 2;
            if region[place..].starts_with(b"--") && may_open(region, place) {
                return Some(place);
            }
            from = found + 1;
        }
        None
    }
}
