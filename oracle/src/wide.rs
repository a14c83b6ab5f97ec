//! IMAP sessions for document 02's W8: characters above 127 in append lines and around them, now and then bytes that are no UTF-8.

use crate::case::{Case, ENOUGH};
use crate::generate::high_bytes;
use crate::grammar::Builder;
use crate::rng::Rng;

const WHITE: [&str; 19] = [
    "\u{85}", "\u{a0}", "\u{1680}", "\u{2000}", "\u{2001}", "\u{2002}", "\u{2003}", "\u{2004}", "\u{2005}", "\u{2006}",
    "\u{2007}", "\u{2008}", "\u{2009}", "\u{200a}", "\u{2028}", "\u{2029}", "\u{202f}", "\u{205f}", "\u{3000}",
];

/// Beside white space and at the edges of the ranges, but no white space.
const DARK: [&str; 28] = [
    "\u{1c}", "\u{1f}", "\u{7f}", "\u{80}", "\u{84}", "\u{86}", "\u{9f}", "\u{a1}", "\u{7ff}", "\u{800}", "\u{167f}",
    "\u{1681}", "\u{180e}", "\u{1fff}", "\u{200b}", "\u{2027}", "\u{202a}", "\u{2030}", "\u{205e}", "\u{2060}",
    "\u{2fff}", "\u{3001}", "\u{d7ff}", "\u{e000}", "\u{feff}", "\u{ffff}", "\u{10000}", "\u{10ffff}",
];

/// No character: lone and missing octets, spaces in too many octets, surrogates, above the last, no first octet.
const BROKEN: [&[u8]; 16] = [
    b"\x80", b"\x85", b"\xa0", b"\xc2", b"\xe2\x80", b"\xf0\x9f\x98", b"\xc0\xa0", b"\xe0\x80\xa0", b"\xe0\x82\x85",
    b"\xf0\x80\x80\xa0", b"\xed\xa0\x80", b"\xed\xbf\xbf", b"\xf4\x90\x80\x80", b"\xf7\xbf\xbf\xbf",
    b"\xf8\x88\x80\x80\x80", b"\xff",
];

pub fn case(rng: &mut Rng) -> Case {
    let mut bytes = Vec::new();
    if rng.chance(25) {
        bytes = Builder::new(rng, b'I').session();
        high_bytes(rng, &mut bytes);
    } else {
        for _ in 0..1 + rng.below(3) {
            append(rng, &mut bytes);
        }
    }
    Case { entry: b'I', slots: ENOUGH, bytes }
}

/// Up to three pieces: in `percent` of a hundred not the usual ones, and of those in `white` white space.
fn some(rng: &mut Rng, line: &mut Vec<u8>, percent: usize, white: usize, usual: &[&str]) {
    for _ in 0..rng.below(4) {
        let wide: &[&str] = if rng.chance(white) { &WHITE } else { &DARK };
        line.extend(if rng.chance(percent) { rng.pick(wide) } else { rng.pick(usual) }.as_bytes());
    }
}

/// An append line, and a mail of the size that it announces.
fn append(rng: &mut Rng, out: &mut Vec<u8>) {
    let mut line = rng.pick_odd(20, &["a", "A001"], &["", "\u{a0}", "\u{e9}"]).as_bytes().to_vec();
    some(rng, &mut line, 30, 40, &["b", ".", "1"]);
    let gap = rng.pick_odd(15, &[" ", "\t"], &["", "\u{a0}", "\u{2003} ", " \u{3000}", "\u{b}"]);
    let word = rng.pick_odd(5, &["APPEND"], &["append", "NOOP", "APPEN\u{391}"]);
    line.extend([gap, word].concat().as_bytes());
    some(rng, &mut line, 30, 40, &[" x", " ", "{3}"]);
    let mut body = Vec::new();
    some(rng, &mut body, 40, 50, &["h", "\r\n", " ", ":"]);
    line.extend(format!("{{{}}}", 8 + body.len()).as_bytes());
    some(rng, &mut line, 70, 85, &[" ", "\t", "\u{b}", "\u{c}", "}"]);
    if rng.chance(12) {
        let at = rng.below(line.len() + 1);
        line.splice(at..at, rng.pick(&BROKEN).iter().copied());
    }
    out.extend(line);
    out.extend(rng.pick_odd(10, &["\r\n"], &["\n", "\r\r\n", "\u{85}\r\n", "\u{a0}\n"]).as_bytes());
    out.extend(b"T: u\r\n\r\n");
    out.extend(body);
    out.extend(rng.pick_odd(5, &["\r\n"], &["", "\u{85}"]).as_bytes());
}
