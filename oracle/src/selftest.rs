//! Document 01's "Sessions to check", W4's numbers, W1's encodings, W8's white space, and the findings of docs/DIFFERENCES.md,
//! as cases with answers; W2's and W6's sessions by windows stand beside.

use crate::case::{Answer, Case, ENOUGH, Sides, readable};
use crate::cut::Cut;
use crate::differences;
use crate::judge::{NO_TEXT, PlainJudge, SwiftJudge};
use crate::list::write_windows;
use crate::packet::{Packet, Plain, Swift};
use crate::reading;
use crate::utf8;
use crate::windows_selftest;
use crate::wrong::Wrong;
use memchr::memmem::Finder;
use std::fmt::Display;

const FIRST: &str = "EHLO a\r\nMAIL FROM: <b@c>\r\nRCPT TO: <d@e>\r\nDATA\r\nTo: d\r\n\r\nhi\r\n.\r\n";
const FIRST_EVENTS: &str = "11 20 3 0\n12 36 3 0\n1 48 7 0\n1 55 2 0\n2 57 0 0\n3 57 4 0\n";

struct Documented {
    case: Case,
    listing: String,
}

fn documented(entry: u8, slots: u32, bytes: &str, listing: &str) -> Documented {
    let case = Case { entry, slots, bytes: bytes.into() };
    Documented { case, listing: listing.to_string() }
}

/// A POP3 line of `length` bytes, then a mail of one line, which is one only if the line retrieves.
fn retrieval(line: &str, retrieves: bool) -> Documented {
    let n = line.len();
    let mail = format!("1 {} 6 0\n1 {} 2 0\n2 {} 0 0\n6 {} 0 0\n1 {} 5\n", n + 2, n + 8, n + 10, n + 10, n + 13);
    let lines = format!("8 {} 4 0\n8 {} 0 0\n8 {} 1 0\n1 {} 4\n", n + 2, n + 8, n + 10, n + 13);
    let listing = format!("8 0 {n} 0\n{}", if retrieves { mail } else { lines });
    documented(b'P', ENOUGH, &format!("{line}\r\nT: u\r\n\r\n.\r\n"), &listing)
}

/// An append whose mail has a header of eight bytes; a size of 0 refuses.
fn append(size: &str, mail: &str, end: &str) -> Documented {
    let command = format!("a APPEND x {size}");
    let n = command.len();
    let listing = format!("7 0 {n} 0\n1 {} 6 0\n1 {} 2 0\n{end}", n + 2, n + 8);
    documented(b'I', ENOUGH, &format!("{command}\r\nT: u\r\n\r\n{mail}"), &listing)
}

/// `levels` multiparts one in another, then one part and its close.
fn nested(levels: usize) -> Documented {
    let mut text = "+OK 1 octets\r\n".to_string();
    let mut listing = "8 0 12 0\n".to_string();
    for level in 1..=levels {
        let at = text.len();
        text += &format!("Content-Type: boundary={level}\r\n\r\n");
        listing += &format!("1 {at} 26 0\n1 {} 2 0\n", at + 26);
        if level == 9 {
            listing += &format!("9 {} {}\n", text.len(), 1 + 2 * levels);
            return documented(b'P', ENOUGH, &text, &listing);
        }
        text += &format!("--{level}\r\n");
    }
    let at = text.len();
    text += &format!("\r\nx\r\n--{levels}--\r\n");
    listing += &format!(
        "1 {at} 2 0\n2 {} 0 0\n5 {} 1 0\n6 {} 0 0\n1 {} {}\n",
        at + 2,
        at + 2,
        at + 3,
        text.len(),
        5 + 2 * levels
    );
    documented(b'P', ENOUGH, &text, &listing)
}

/// A preamble or content by itself: the text behind the blank line of a mail with boundary q.
fn region(text: &str, listing: &str) -> Documented {
    let before = "+OK 1 octets\r\nContent-Type: boundary=q\r\n\r\n";
    documented(b'P', ENOUGH, &format!("{before}{text}"), &format!("8 0 12 0\n1 14 26 0\n1 40 2 0\n{listing}"))
}

fn all_documented() -> Vec<Documented> {
    let whole = format!("{FIRST_EVENTS}6 61 0 0\n0 64 7\n");
    let mut all = vec![
        documented(b'S', ENOUGH, FIRST, &whole),
        documented(b'S', 7, FIRST, &whole),
        documented(b'S', 6, FIRST, &format!("{FIRST_EVENTS}10 61 6\n")),
        retrieval("+OK 4294967295 octets", true),
        retrieval("+OK 4294967296 octets", false),
        retrieval("+OK 0000000000007 octetsX", true),
        retrieval("+OK12 octets", false),
        append("{10}}", "hi\r\n", "2 26 0 0\n4 26 2 0\n6 28 0 0\n1 30 6\n"),
        append("{10+}", "hi\r\n", "7 26 3\n"),
        append("{}", "hi\r\n", "7 23 3\n"),
        append("{18446744073709551616}", "hi\r\n", "7 43 3\n"),
        append("{11}", "hey\r\n", "2 25 0 0\n4 25 3 0\n6 28 0 0\n1 30 6\n"),
        append("{08}", "hey\r\n", "2 25 0 0\n6 25 0 0\n8 25 5\n"),
        append("{07}", "hey\r\n", "7 25 3\n"),
        region("abc\r\n--q\r\n", "1 52 3\n"),
        region("--q\r\n", "1 47 3\n"),
        region("x--q\r\n", "1 42 3\n"),
        region("--q\r\n\r\nabc\r\n--q", "1 47 2 0\n2 49 0 0\n5 49 3 0\n6 52 0 0\n1 57 7\n"),
        region("--q\r\n\r\n--q", "1 47 2 0\n2 49 0 0\n6 49 0 0\n1 52 6\n"),
        region("--q\r\n\r\nx--q", "1 47 2 0\n2 49 0 0\n1 49 5\n"),
        region("--qq\r\n", "6 45 3\n"),
        nested(8),
        nested(9),
    ];
    all.extend(b"SsPI".iter().map(|&entry| documented(entry, ENOUGH, "", "1 0 0\n")));
    all
}

/// Document 02, W4: numbers of octets with zeros in front, and one with more digits than the largest has.
fn octet_numbers() -> Vec<Documented> {
    vec![
        retrieval("+OK 0 octets", true),
        retrieval("+OK 00 octets", true),
        retrieval("+OK 04294967295 octets", true),
        retrieval("+OK 04294967296 octets", false),
        retrieval("+OK 10000000000 octets", false),
    ]
}

/// The same, too long for the stored list: a million zeros before the number, a million nines.
fn million_digits() -> Vec<Documented> {
    let zeros = "0".repeat(1_000_000);
    let nines = "9".repeat(1_000_000);
    vec![
        retrieval(&format!("+OK {zeros}1 octets"), true),
        retrieval(&format!("+OK {zeros}4294967296 octets"), false),
        retrieval(&format!("+OK {nines} octets"), false),
    ]
}

/// A POP3 mail of one line, its header these lines; the encoding that its body gets.
fn encoded(header: &str, encoding: u32) -> Documented {
    let mut text = "+OK 1 octets\r\n".to_string();
    let mut listing = "8 0 12 0\n".to_string();
    let mut count = 1;
    for line in header.split_inclusive('\n').chain(["\r\n"]) {
        listing += &format!("1 {} {} 0\n", text.len(), line.len());
        text += line;
        count += 1;
    }
    let n = text.len();
    listing += &format!("2 {n} 0 0\n3 {n} 3 {encoding}\n6 {} 0 0\n1 {} {}\n", n + 3, n + 6, count + 3);
    documented(b'P', ENOUGH, &format!("{text}x\r\n.\r\n"), &listing)
}

/// Document 02, W1: what the encoding's field says, and which of two counts.
fn encodings() -> Vec<Documented> {
    let field = |rest: &str| format!("Content-Transfer-Encoding:{rest}");
    let part = "--q\r\nContent-Transfer-Encoding: x-uuencode\r\n\r\nx\r\n--q";
    let mail = format!("+OK 1 octets\r\nContent-Type: boundary=q\r\n{}\r\n{part}", field(" base64\r\n"));
    vec![
        encoded(&field(" x-uuencode\r\n"), 6),
        encoded("content-transfer-ENCODING:x\r\n", 6),
        encoded(&field(" 7bit\n"), 6),
        encoded(&field("\t7bit\r\n"), 6),
        encoded(&field(" 7bit \r\n"), 6),
        encoded(&field("\r\n"), 6),
        encoded(&field("\r\n 7bit\r\n"), 6),
        encoded(&(field(" x-uuencode\r\n") + &field(" base64\r\n")), 5),
        encoded(&(field(" base64\r\n") + &field(" x-uuencode\r\n")), 5),
        encoded("Content-Transfer-Encoding : 7bit\r\n", 0),
        encoded("Content-Transfer-Encoding 7bit\r\n", 0),
        documented(
            b'P',
            ENOUGH,
            &mail,
            "8 0 12 0\n1 14 26 0\n1 40 35 0\n1 75 2 0\n1 82 39 0\n1 121 2 0\n2 123 0 0\n5 123 1 6\n6 124 0 0\n1 129 9\n",
        ),
    ]
}

/// An append line and a mail of eleven bytes: what it is by the size, none where the line is no append.
fn offered(line: &[u8], size: Option<u64>) -> Documented {
    let n = line.len();
    let (head, blank, body, end) = (n + 2, n + 8, n + 10, n + 15);
    let listing = match size {
        None => format!("7 {head} 4 0\n7 {blank} 0 0\n7 {body} 3 0\n1 {end} 4\n"),
        Some(11) => format!("1 {head} 6 0\n1 {blank} 2 0\n2 {body} 0 0\n4 {body} 3 0\n6 {} 0 0\n1 {end} 6\n", n + 13),
        Some(_) => format!("1 {head} 6 0\n1 {blank} 2 0\n7 {body} 3\n"),
    };
    let case = Case::session(b'I', &[line, b"\r\nT: u\r\n\r\nhey\r\n"].concat());
    Documented { case, listing: format!("7 0 {n} 0\n{listing}") }
}

/// Document 02, W8: each white character behind the brace, in a tag and alone as one; characters beside them; lines that are no UTF-8.
fn white_space() -> Vec<Documented> {
    let white = [0x85, 0xa0, 0x1680].into_iter().chain(0x2000..=0x200a).chain([0x2028, 0x2029, 0x202f, 0x205f, 0x3000]);
    let dark = [0x1c, 0x1f, 0x84, 0x180e, 0x200b, 0x2060, 0xfeff, 0x1_f600, 0x10_ffff];
    let text = |number: u32| char::from_u32(number).expect("a character").to_string();
    let mut all = Vec::new();
    for (number, is_white) in white.map(|c| (c, true)).chain(dark.map(|c| (c, false))) {
        let c = text(number);
        all.push(offered(format!("a APPEND {{11}}{c}").as_bytes(), Some(if is_white { 11 } else { 0 })));
        all.push(offered(format!("{c} APPEND {{11}}").as_bytes(), if is_white { None } else { Some(11) }));
    }
    all.extend([
        offered("a\u{85}b APPEND {11}".as_bytes(), None),
        offered("a\u{a0}APPEND {11}".as_bytes(), None),
        offered("a \u{a0}APPEND {11}".as_bytes(), None),
        offered("\u{e9} APPEND {11} \u{3000}\t\u{2003}\u{b}".as_bytes(), Some(11)),
        offered("a APPEND {3} \u{2003} {11}\u{2003}".as_bytes(), Some(11)),
        offered("a APPEND {11}\u{e9}\u{a0}".as_bytes(), Some(0)),
        offered(b"a APPEND {11}\xa0", Some(0)),
        offered(b"a APPEND {11}\x85", Some(0)),
        offered(b"\x85 APPEND {11}", Some(11)),
        offered(b"a APPEND {11}\xc0\xa0", Some(0)),
        offered(b"a APPEND {11}\xe0\x82\xa0", Some(0)),
        offered(b"a APPEND \x80 {11}\xc2\xa0", Some(0)),
        offered(b"\xc2\x85 APPEND \x80 {11}", Some(11)),
        offered(b"a APPEND \xe0\x80\xa0 {11}\xc2\xa0", Some(0)),
        offered(b"a APPEND \xf0\x80\x80\xa0 {11}\xc2\xa0", Some(0)),
        offered(b"a APPEND \xed\xa0\x80 {11}\xc2\xa0", Some(0)),
        offered(b"a APPEND \xed\x9f\xbf {11}\xc2\xa0", Some(11)),
        offered(b"a APPEND \xf4\x90\x80\x80 {11}\xc2\xa0", Some(0)),
        offered(b"a APPEND \xf4\x8f\xbf\xbf {11}\xc2\xa0", Some(11)),
        offered(b"a APPEND \xf8\x88\x80\x80\x80 {11}\xc2\xa0", Some(0)),
        offered(b"a APPEND {11}\xc2\xa0\xe2\x80", Some(0)),
    ]);
    all
}

/// The same, too long for the stored list: lines of a megabyte of white space, of tails, of characters that break off.
fn million_characters() -> Vec<Documented> {
    let line = |tail: &[u8], count: usize| [b"a APPEND {11}".to_vec(), tail.repeat(count)].concat();
    let tag = |unit: &[u8]| [unit.repeat(350_000), b" APPEND {11}".to_vec()].concat();
    vec![
        offered(&line(b"\xe2\x80\x83", 350_000), Some(11)),
        offered(&line(b"\x80", 1_000_000), Some(0)),
        offered(&line(b"\xe2\x80", 500_000), Some(0)),
        offered(&tag(b"\xe2\x80\x83"), None),
        offered(&tag(b"\xe2\x80\x8b"), Some(11)),
        offered(&tag(b"\xe2\x80"), Some(11)),
    ]
}

pub fn documented_cases() -> Vec<Case> {
    let all = all_documented().into_iter().chain(octet_numbers()).chain(encodings()).chain(white_space());
    all.map(|documented| documented.case).collect()
}

/// Input outside the claim, what document 01 says, and what the Rust does.
struct Finding {
    case: Case,
    document: &'static str,
    rust: &'static str,
}

fn finding(entry: u8, bytes: &[u8], document: &'static str, rust: &'static str) -> Finding {
    Finding { case: Case::session(entry, bytes), document, rust }
}

fn greeting(server: &[u8], document: &'static str, rust: &'static str) -> Finding {
    Finding { case: Sides::case(3, [0, 0], 2, b"", server), document, rust }
}

const OFF_BOUNDARY: &str = "unjudged: panic in common.rs: off a character boundary\n";
const OFF_BOUNDARY_TAG: &str = "unjudged: panic in imap.rs: off a character boundary\n";
const CLOSED: &str = "Content-Type: boundary=\r\n\r\n--\r\n\r\n----";

/// In the order of docs/DIFFERENCES.md.
fn findings() -> Vec<Finding> {
    let smtp = format!("HELO\nMAIL FROM:\nDATA\n{CLOSED}--\u{e9}\n");
    let pop3 = format!("+OK 1 octets\n{CLOSED}--\u{e9}\n");
    let imap = format!("a APPEND\n{CLOSED}--\u{e9}\n");
    vec![
        finding(b'S', smtp.as_bytes(), "1 21 25 0\n1 46 2 0\n1 52 2 0\n2 54 0 0\n6 54 0 0\n1 63 5\n", OFF_BOUNDARY),
        finding(
            b'P',
            pop3.as_bytes(),
            "8 0 12 0\n1 13 25 0\n1 38 2 0\n1 44 2 0\n2 46 0 0\n6 46 0 0\n1 55 6\n",
            OFF_BOUNDARY,
        ),
        finding(
            b'I',
            imap.as_bytes(),
            "7 0 8 0\n1 9 25 0\n1 34 2 0\n1 40 2 0\n2 42 0 0\n6 42 0 0\n1 51 6\n",
            OFF_BOUNDARY,
        ),
        greeting("\u{e9} A     x".as_bytes(), "0\n", OFF_BOUNDARY_TAG),
        greeting("a\u{a0} A    x".as_bytes(), "0\n", OFF_BOUNDARY_TAG),
        greeting("\u{212a}aA    x".as_bytes(), "0\n", "1\n"),
        greeting("a \u{c9}     x".as_bytes(), "0\n", "1\n"),
        finding(b's', b"\x80\n", "8 0 1 0\n1 2 1\n", "unjudged: no UTF-8\n"),
        finding(
            b'I',
            b"a APPEND \x80{4}\xc2\xa0\n:\n\r\n",
            "7 0 15 0\n1 16 2 0\n1 18 2 0\n7 20 3\n",
            "unjudged: no UTF-8\n",
        ),
    ]
}

struct Judges {
    swift: SwiftJudge,
    plain: PlainJudge,
    failed: usize,
    run: usize,
}

impl Judges {
    fn expect(&mut self, what: &str, case: &Case, found: &impl Display, wanted: &str) {
        self.run += 1;
        let found = found.to_string();
        if found != wanted {
            self.failed += 1;
            println!("{what}, {} {}:\n{found}instead of\n{wanted}", case.entry as char, readable(&case.bytes));
        }
    }

    /// The Rust and the document say the same, but that an encoding 6 is none to the Rust.
    fn ask_both(&mut self, case: &Case, document: &str) {
        let rust = reading::answer(case, Wrong::Nothing).as_rust().to_string();
        self.ask(case, &rust, document);
    }

    /// The same, where the Rust can be asked: every line is UTF-8.
    fn ask_of_text(&mut self, case: &Case, document: &str) {
        if case.bytes.split(|&b| b == b'\n').all(|line| std::str::from_utf8(line).is_ok()) {
            self.ask_both(case, document);
        } else {
            self.ask(case, &format!("unjudged: {NO_TEXT}\n"), document);
        }
    }

    fn ask(&mut self, case: &Case, rust: &str, document: &str) {
        let answers = [
            ("stream on memchr", self.swift.answer(case), rust),
            ("stream of byte loops", self.plain.answer(case), rust),
            ("second reading", reading::answer(case, Wrong::Nothing), document),
        ];
        for (what, answer, wanted) in &answers {
            self.expect(what, case, answer, wanted);
        }
    }

    /// With the strict setting on: one call as by windows, and one window.
    fn ask_strict(&mut self, case: &Case, document: &str) {
        let (listing, _) = reading::as_by_windows(case.entry, &case.bytes, case.slots(), true);
        self.expect("second reading, strict", case, &Answer::Session(listing), document);
        let mut cut = Cut::plain(case.clone(), vec![case.bytes.len()]);
        cut.strict = true;
        let mut shown = Vec::new();
        write_windows(&mut shown, &cut).expect("memory can be written");
        let shown = String::from_utf8_lossy(&shown);
        let listed = shown.split_once('\n').map_or("", |(_, listed)| listed);
        self.expect("one window, strict", case, &listed, document);
    }

    fn ask_around_limit(&mut self) {
        let full = vec![0; 16_777_216];
        self.ask_both(&Case::session(b's', &full), "1 0 0\n");
        let over = vec![b'\n'; 16_777_217];
        self.ask_both(&Case::session(b's', &over), "2 0 0\n");
    }
}

/// Content's length and where reading goes on, by document 01's three examples.
fn delimiters<T: Packet>() -> bool {
    let finder = Finder::new("q");
    let place = |region: &str| T::delimiter(region.as_bytes(), &finder, b"q");
    place("abc\r\n--q") == Some(5) && place("--q") == Some(0) && place("x--q").is_none()
}

/// No character above 127 becomes t, l or s in lower case, so the tls test is the same for both.
fn lower_case_is_safe() -> bool {
    let above = (128..=0x10ffff).filter_map(char::from_u32);
    above.flat_map(char::to_lowercase).all(|c| !matches!(c, 't' | 'l' | 's'))
}

pub fn run() -> bool {
    let mut judges = Judges {
        swift: SwiftJudge::new(true),
        plain: PlainJudge::new(true),
        failed: 0,
        run: 0,
    };
    for documented in all_documented().into_iter().chain(octet_numbers()).chain(million_digits()).chain(encodings()) {
        judges.ask_both(&documented.case, &documented.listing);
    }
    for documented in white_space().into_iter().chain(million_characters()) {
        judges.ask_of_text(&documented.case, &documented.listing);
    }
    for finding in findings() {
        judges.ask(&finding.case, finding.rust, finding.document);
    }
    let page = include_str!("../../docs/DIFFERENCES.md");
    let examples = differences::examples(page).unwrap_or_else(|why| {
        judges.failed += 1;
        println!("docs/DIFFERENCES.md, {why}");
        Vec::new()
    });
    for example in &examples {
        let failed = judges.failed;
        if example.strict {
            judges.ask_strict(&example.case, &example.listing);
        } else {
            judges.ask_both(&example.case, &example.listing);
        }
        if judges.failed > failed {
            println!("(docs/DIFFERENCES.md, line {})", example.line);
        }
    }
    judges.ask_around_limit();
    let (windows, failed) = windows_selftest::run();
    judges.run += windows;
    judges.failed += failed;
    let sound = delimiters::<Plain>() && delimiters::<Swift>() && lower_case_is_safe() && utf8::holds();
    println!(
        "{} checks, {} failed, {} inputs of docs/DIFFERENCES.md and {windows} sessions by windows among them; delimiters and characters {}",
        judges.run,
        judges.failed,
        examples.len(),
        if sound { "hold" } else { "FAIL" }
    );
    sound && judges.failed == 0
}

#[test]
fn documented_sessions_and_findings_hold() {
    crate::judge::silence_panics();
    assert!(run());
}
